[{"click": ".related .inline-search input[name=q]"}, {"type": "raw"}, {"key": "Tab"}]
