[{"click": "#datepicker"}, {"click": ".ui-datepicker-next"}, {"click": ".ui-datepicker-next"}, {"click": ".ui-datepicker-prev"}]
