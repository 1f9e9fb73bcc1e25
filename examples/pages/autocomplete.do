[{"click": "#tags"}, {"type": "ja"}, {"key": "ArrowDown"}, {"key": "ArrowDown"}, {"key": "Enter"}]
