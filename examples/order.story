{"insert":2,"into":1,"tag":"main"}
{"insert":3,"into":2,"tag":"div","attrs":{"role":"form","aria-labelledby":"title"}}
{"insert":4,"into":3,"tag":"h1","attrs":{"id":"title"}}
{"insert":5,"into":4,"text":"Order tea"}
{"insert":6,"into":3,"tag":"label","attrs":{"for":"mail"}}
{"insert":7,"into":6,"text":"Your mail"}
{"insert":8,"into":3,"tag":"input","attrs":{"id":"mail","type":"email","required":"","value":"","aria-describedby":"hint wrong"}}
{"insert":9,"into":3,"tag":"p","attrs":{"id":"hint"}}
{"insert":10,"into":9,"text":"The bill goes there."}
{"insert":11,"into":3,"tag":"p","attrs":{"id":"wrong"}}
{"insert":12,"into":3,"tag":"input","attrs":{"id":"gift","type":"checkbox","title":"Wrapped in paper"}}
{"insert":13,"into":3,"tag":"label","attrs":{"for":"gift"}}
{"insert":14,"into":13,"text":"As a gift"}
{"insert":15,"into":3,"tag":"button"}
{"insert":16,"into":15,"text":"Order "}
{"insert":17,"into":15,"tag":"img","attrs":{"alt":"with duty to pay"}}
{"insert":18,"into":2,"tag":"div","attrs":{"role":"status"}}
{"start":1}
{"focus":8}
{"flush":true}
{"until":1}
{"set":8,"name":"value","value":"mia"}
{"set":12,"name":"checked","value":""}
{"focus":15}
{"set":8,"name":"aria-invalid","value":"true"}
{"insert":19,"into":11,"text":"This is no mail address."}
{"flush":true}
{"until":2}
{"set":8,"name":"value","value":"mia@tea.example"}
{"unset":8,"name":"aria-invalid"}
{"remove":19}
{"set":15,"name":"disabled","value":""}
{"insert":20,"into":18,"text":"Thank you, Mia."}
{"flush":true}
{"await":1}
{"again":{"q":"focus"}}
{"again":{"q":"role","id":8}}
{"again":{"q":"name","id":8}}
{"again":{"q":"description","id":8}}
{"again":{"q":"states","id":8}}
{"again":{"q":"value","id":8}}
{"again":{"q":"states","id":12}}
{"await":2}
{"again":{"q":"focus"}}
{"again":{"q":"name","id":15}}
{"again":{"q":"description","id":8}}
{"again":{"q":"states","id":8}}
{"again":{"q":"name","id":12}}
{"again":{"q":"description","id":12}}
{"again":{"q":"states","id":12}}
{"await":3}
{"again":{"q":"states","id":15}}
{"again":{"q":"states","id":8}}
{"again":{"q":"value","id":8}}
{"again":{"q":"live","id":20}}
{"again":{"q":"name","id":20}}
