[{"key": "Tab"}, {"key": "ArrowDown"}, {"key": "ArrowDown"}, {"key": "ArrowDown"}, {"key": "ArrowRight"}, {"key": "ArrowDown"}, {"key": "Escape"}]
