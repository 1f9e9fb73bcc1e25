[{"click": "#accordion h3:nth-of-type(2)"}, {"key": "ArrowDown"}, {"key": "Enter"}]
