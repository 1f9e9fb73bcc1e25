{"insert":2,"into":1,"tag":"main","attrs":{"aria-label":"Shop"}}
{"insert":3,"into":2,"tag":"article","attrs":{"aria-label":"Green tea"}}
{"insert":4,"into":3,"tag":"button"}
{"insert":5,"into":4,"text":"Add to basket"}
{"insert":6,"into":2,"text":"Your basket is empty."}
{"start":1}
{"turns":"CCPPPPPP"}
{"focus":4}
{"flush":true}
{"until":1}
{"text":5,"to":"In your basket"}
{"text":6,"to":"1 thing in your basket"}
{"flush":true}
{"ask":{"q":"name","id":4}}
{"hear":true}
{"await":1}
{"again":{"q":"focus"}}
{"again":{"q":"name","id":4}}
{"await":2}
{"again":{"q":"name","id":4}}
{"again":{"q":"name","id":6}}
{"again":{"q":"children","id":2}}
{"again":{"q":"role","id":5}}
