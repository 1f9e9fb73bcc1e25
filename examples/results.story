{"insert":2,"into":1,"tag":"main"}
{"insert":3,"into":2,"tag":"label","attrs":{"for":"words"}}
{"insert":4,"into":3,"text":"Search the library"}
{"insert":5,"into":2,"tag":"input","attrs":{"id":"words","value":""}}
{"insert":6,"into":2,"tag":"div","attrs":{"role":"checkbox","aria-checked":"false","tabindex":"0","aria-label":"Only what is in"}}
{"insert":7,"into":2,"tag":"div","attrs":{"role":"status"}}
{"insert":8,"into":2,"tag":"ul"}
{"insert":9,"into":2,"tag":"button","attrs":{"aria-expanded":"false"}}
{"insert":10,"into":9,"text":"More ways to search"}
{"start":1}
{"focus":5}
{"set":5,"name":"value","value":"tides"}
{"set":6,"name":"aria-checked","value":"true"}
{"flush":true}
{"insert":11,"into":7,"text":"1 book"}
{"insert":12,"into":8,"tag":"li"}
{"insert":13,"into":12,"tag":"a","attrs":{"href":"/tides"}}
{"insert":14,"into":13,"text":"The book of tides"}
{"flush":true}
{"set":9,"name":"aria-expanded","value":"true"}
{"text":10,"to":"Fewer ways to search"}
{"text":11,"to":"1  book"}
{"focus":10}
{"await":1}
{"notices":true}
{"await":3}
{"again":{"q":"children","id":8}}
{"notices":true}
{"notices":true}
