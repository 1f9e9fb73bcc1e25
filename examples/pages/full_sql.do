[{"key": "Tab"}, {"key": "Tab"}, {"click": "#search_menubutton"}]
