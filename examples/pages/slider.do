[{"key": "Tab"}, {"key": "ArrowRight"}, {"key": "End"}]
