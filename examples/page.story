{"insert":2,"into":1,"tag":"main","attrs":{"aria-label":"Shop"}}
{"insert":3,"into":2,"tag":"article","attrs":{"aria-label":"Green tea"}}
{"insert":4,"into":3,"tag":"button","attrs":{"aria-label":"  Add to \t basket "}}
{"insert":5,"into":2,"tag":"article","attrs":{"aria-label":"Black tea"}}
{"insert":6,"into":5,"tag":"button","attrs":{"aria-label":"Add to \"wish list\""}}
{"insert":7,"into":1,"tag":"button"}
{"start":1}
