[{"click": "#create-user"}, {"key": "Shift+End"}, {"type": "Mia"}, {"key": "Tab"}, {"type": "no mail"}, {"click": ".ui-dialog-buttonset button"}, {"key": "Escape"}]
