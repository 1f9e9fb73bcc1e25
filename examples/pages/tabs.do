[{"click": "#ui-id-2"}, {"key": "ArrowRight"}]
