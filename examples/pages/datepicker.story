{"insert":2,"into":1,"text":"\n"}
{"insert":3,"into":1,"tag":"body","attrs":{"display":"block"}}
{"insert":4,"into":3,"text":"\n\n"}
{"insert":5,"into":3,"tag":"p","attrs":{"display":"block"}}
{"insert":6,"into":5,"text":"Date: "}
{"insert":7,"into":5,"tag":"input","attrs":{"type":"text","id":"datepicker"}}
{"insert":8,"into":3,"text":"\n\n"}
{"insert":9,"into":3,"tag":"div","attrs":{"class":"demo-description","display":"block"}}
{"insert":10,"into":9,"text":"\n"}
{"insert":11,"into":9,"tag":"p","attrs":{"display":"block"}}
{"insert":12,"into":11,"text":"The datepicker is tied to a standard form input field.  Focus on the input (click, or use the tab key) to open an interactive calendar in a small overlay.  Choose a date, click elsewhere on the page (blur the input), or hit the Esc key to close. If a date is chosen, feedback is shown as the input's value."}
{"insert":13,"into":9,"text":"\n"}
{"insert":14,"into":3,"text":"\n\n\n"}
{"set":1,"name":"lang","value":"en"}
{"set":1,"name":"class","value":"demo-loading"}
{"set":1,"name":"display","value":"block"}
{"frame":1,"rect":[0,0,1024,174]}
{"frame":3,"rect":[8,16,1008,150]}
{"frame":5,"rect":[8,16,1008,21]}
{"runs":6,"list":[[0,6,0,8,16,49,19]]}
{"frame":7,"rect":[57,16,179,21]}
{"frame":9,"rect":[8,53,1008,113]}
{"frame":11,"rect":[20,81,984,57]}
{"runs":12,"list":[[0,126,1,20,81,963,19],[126,251,2,20,100,952,19],[251,306,3,20,119,442,19]]}
{"start":1}
{"again":{"q":"focus"}}
{"insert":15,"into":3,"tag":"div","attrs":{"id":"ui-datepicker-div","class":"ui-datepicker ui-widget ui-widget-content ui-helper-clearfix ui-corner-all","display":"none"}}
{"set":1,"name":"class","value":""}
{"set":7,"name":"class","value":"hasDatepicker"}
{"flush":true}
{"until":1}
{"await":1}
{"again":{"q":"focus"}}
{"notices":true}
{"insert":16,"into":15,"tag":"div","attrs":{"class":"ui-datepicker-header ui-widget-header ui-helper-clearfix ui-corner-all","display":"block"}}
{"insert":17,"into":16,"tag":"a","attrs":{"class":"ui-datepicker-prev ui-corner-all","data-handler":"prev","data-event":"click","title":"Prev","display":"block"}}
{"insert":18,"into":17,"tag":"span","attrs":{"class":"ui-icon ui-icon-circle-triangle-w","display":"block"}}
{"insert":19,"into":18,"text":"Prev"}
{"insert":20,"into":16,"tag":"a","attrs":{"class":"ui-datepicker-next ui-corner-all","data-handler":"next","data-event":"click","title":"Next","display":"block"}}
{"insert":21,"into":20,"tag":"span","attrs":{"class":"ui-icon ui-icon-circle-triangle-e","display":"block"}}
{"insert":22,"into":21,"text":"Next"}
{"insert":23,"into":16,"tag":"div","attrs":{"class":"ui-datepicker-title","display":"block"}}
{"insert":24,"into":23,"tag":"span","attrs":{"class":"ui-datepicker-month","display":"inline"}}
{"insert":25,"into":24,"text":"December"}
{"insert":26,"into":23,"text":" "}
{"insert":27,"into":23,"tag":"span","attrs":{"class":"ui-datepicker-year","display":"inline"}}
{"insert":28,"into":27,"text":"2026"}
{"insert":29,"into":15,"tag":"table","attrs":{"class":"ui-datepicker-calendar"}}
{"insert":30,"into":29,"tag":"thead"}
{"insert":31,"into":30,"tag":"tr"}
{"insert":32,"into":31,"tag":"th","attrs":{"scope":"col","class":"ui-datepicker-week-end"}}
{"insert":33,"into":32,"tag":"span","attrs":{"title":"Sunday","display":"inline"}}
{"insert":34,"into":33,"text":"Su"}
{"insert":35,"into":31,"tag":"th","attrs":{"scope":"col"}}
{"insert":36,"into":35,"tag":"span","attrs":{"title":"Monday","display":"inline"}}
{"insert":37,"into":36,"text":"Mo"}
{"insert":38,"into":31,"tag":"th","attrs":{"scope":"col"}}
{"insert":39,"into":38,"tag":"span","attrs":{"title":"Tuesday","display":"inline"}}
{"insert":40,"into":39,"text":"Tu"}
{"insert":41,"into":31,"tag":"th","attrs":{"scope":"col"}}
{"insert":42,"into":41,"tag":"span","attrs":{"title":"Wednesday","display":"inline"}}
{"insert":43,"into":42,"text":"We"}
{"insert":44,"into":31,"tag":"th","attrs":{"scope":"col"}}
{"insert":45,"into":44,"tag":"span","attrs":{"title":"Thursday","display":"inline"}}
{"insert":46,"into":45,"text":"Th"}
{"insert":47,"into":31,"tag":"th","attrs":{"scope":"col"}}
{"insert":48,"into":47,"tag":"span","attrs":{"title":"Friday","display":"inline"}}
{"insert":49,"into":48,"text":"Fr"}
{"insert":50,"into":31,"tag":"th","attrs":{"scope":"col","class":"ui-datepicker-week-end"}}
{"insert":51,"into":50,"tag":"span","attrs":{"title":"Saturday","display":"inline"}}
{"insert":52,"into":51,"text":"Sa"}
{"insert":53,"into":29,"tag":"tbody"}
{"insert":54,"into":53,"tag":"tr"}
{"insert":55,"into":54,"tag":"td","attrs":{"class":" ui-datepicker-week-end ui-datepicker-other-month ui-datepicker-unselectable ui-state-disabled"}}
{"insert":56,"into":55,"text":" "}
{"insert":57,"into":54,"tag":"td","attrs":{"class":" ui-datepicker-other-month ui-datepicker-unselectable ui-state-disabled"}}
{"insert":58,"into":57,"text":" "}
{"insert":59,"into":54,"tag":"td","attrs":{"class":" ui-datepicker-days-cell-over  ui-datepicker-today","data-handler":"selectDay","data-event":"click","data-month":"11","data-year":"2026"}}
{"insert":60,"into":59,"tag":"a","attrs":{"class":"ui-state-default ui-state-highlight ui-state-hover","href":"#","aria-current":"false","data-date":"1","display":"block"}}
{"insert":61,"into":60,"text":"1"}
{"insert":62,"into":54,"tag":"td","attrs":{"class":" ","data-handler":"selectDay","data-event":"click","data-month":"11","data-year":"2026"}}
{"insert":63,"into":62,"tag":"a","attrs":{"class":"ui-state-default","href":"#","aria-current":"false","data-date":"2","display":"block"}}
{"insert":64,"into":63,"text":"2"}
{"insert":65,"into":54,"tag":"td","attrs":{"class":" ","data-handler":"selectDay","data-event":"click","data-month":"11","data-year":"2026"}}
{"insert":66,"into":65,"tag":"a","attrs":{"class":"ui-state-default","href":"#","aria-current":"false","data-date":"3","display":"block"}}
{"insert":67,"into":66,"text":"3"}
{"insert":68,"into":54,"tag":"td","attrs":{"class":" ","data-handler":"selectDay","data-event":"click","data-month":"11","data-year":"2026"}}
{"insert":69,"into":68,"tag":"a","attrs":{"class":"ui-state-default","href":"#","aria-current":"false","data-date":"4","display":"block"}}
{"insert":70,"into":69,"text":"4"}
{"insert":71,"into":54,"tag":"td","attrs":{"class":" ui-datepicker-week-end ","data-handler":"selectDay","data-event":"click","data-month":"11","data-year":"2026"}}
{"insert":72,"into":71,"tag":"a","attrs":{"class":"ui-state-default","href":"#","aria-current":"false","data-date":"5","display":"block"}}
{"insert":73,"into":72,"text":"5"}
{"insert":74,"into":53,"tag":"tr"}
{"insert":75,"into":74,"tag":"td","attrs":{"class":" ui-datepicker-week-end ","data-handler":"selectDay","data-event":"click","data-month":"11","data-year":"2026"}}
{"insert":76,"into":75,"tag":"a","attrs":{"class":"ui-state-default","href":"#","aria-current":"false","data-date":"6","display":"block"}}
{"insert":77,"into":76,"text":"6"}
{"insert":78,"into":74,"tag":"td","attrs":{"class":" ","data-handler":"selectDay","data-event":"click","data-month":"11","data-year":"2026"}}
{"insert":79,"into":78,"tag":"a","attrs":{"class":"ui-state-default","href":"#","aria-current":"false","data-date":"7","display":"block"}}
{"insert":80,"into":79,"text":"7"}
{"insert":81,"into":74,"tag":"td","attrs":{"class":" ","data-handler":"selectDay","data-event":"click","data-month":"11","data-year":"2026"}}
{"insert":82,"into":81,"tag":"a","attrs":{"class":"ui-state-default","href":"#","aria-current":"false","data-date":"8","display":"block"}}
{"insert":83,"into":82,"text":"8"}
{"insert":84,"into":74,"tag":"td","attrs":{"class":" ","data-handler":"selectDay","data-event":"click","data-month":"11","data-year":"2026"}}
{"insert":85,"into":84,"tag":"a","attrs":{"class":"ui-state-default","href":"#","aria-current":"false","data-date":"9","display":"block"}}
{"insert":86,"into":85,"text":"9"}
{"insert":87,"into":74,"tag":"td","attrs":{"class":" ","data-handler":"selectDay","data-event":"click","data-month":"11","data-year":"2026"}}
{"insert":88,"into":87,"tag":"a","attrs":{"class":"ui-state-default","href":"#","aria-current":"false","data-date":"10","display":"block"}}
{"insert":89,"into":88,"text":"10"}
{"insert":90,"into":74,"tag":"td","attrs":{"class":" ","data-handler":"selectDay","data-event":"click","data-month":"11","data-year":"2026"}}
{"insert":91,"into":90,"tag":"a","attrs":{"class":"ui-state-default","href":"#","aria-current":"false","data-date":"11","display":"block"}}
{"insert":92,"into":91,"text":"11"}
{"insert":93,"into":74,"tag":"td","attrs":{"class":" ui-datepicker-week-end ","data-handler":"selectDay","data-event":"click","data-month":"11","data-year":"2026"}}
{"insert":94,"into":93,"tag":"a","attrs":{"class":"ui-state-default","href":"#","aria-current":"false","data-date":"12","display":"block"}}
{"insert":95,"into":94,"text":"12"}
{"insert":96,"into":53,"tag":"tr"}
{"insert":97,"into":96,"tag":"td","attrs":{"class":" ui-datepicker-week-end ","data-handler":"selectDay","data-event":"click","data-month":"11","data-year":"2026"}}
{"insert":98,"into":97,"tag":"a","attrs":{"class":"ui-state-default","href":"#","aria-current":"false","data-date":"13","display":"block"}}
{"insert":99,"into":98,"text":"13"}
{"insert":100,"into":96,"tag":"td","attrs":{"class":" ","data-handler":"selectDay","data-event":"click","data-month":"11","data-year":"2026"}}
{"insert":101,"into":100,"tag":"a","attrs":{"class":"ui-state-default","href":"#","aria-current":"false","data-date":"14","display":"block"}}
{"insert":102,"into":101,"text":"14"}
{"insert":103,"into":96,"tag":"td","attrs":{"class":" ","data-handler":"selectDay","data-event":"click","data-month":"11","data-year":"2026"}}
{"insert":104,"into":103,"tag":"a","attrs":{"class":"ui-state-default","href":"#","aria-current":"false","data-date":"15","display":"block"}}
{"insert":105,"into":104,"text":"15"}
{"insert":106,"into":96,"tag":"td","attrs":{"class":" ","data-handler":"selectDay","data-event":"click","data-month":"11","data-year":"2026"}}
{"insert":107,"into":106,"tag":"a","attrs":{"class":"ui-state-default","href":"#","aria-current":"false","data-date":"16","display":"block"}}
{"insert":108,"into":107,"text":"16"}
{"insert":109,"into":96,"tag":"td","attrs":{"class":" ","data-handler":"selectDay","data-event":"click","data-month":"11","data-year":"2026"}}
{"insert":110,"into":109,"tag":"a","attrs":{"class":"ui-state-default","href":"#","aria-current":"false","data-date":"17","display":"block"}}
{"insert":111,"into":110,"text":"17"}
{"insert":112,"into":96,"tag":"td","attrs":{"class":" ","data-handler":"selectDay","data-event":"click","data-month":"11","data-year":"2026"}}
{"insert":113,"into":112,"tag":"a","attrs":{"class":"ui-state-default","href":"#","aria-current":"false","data-date":"18","display":"block"}}
{"insert":114,"into":113,"text":"18"}
{"insert":115,"into":96,"tag":"td","attrs":{"class":" ui-datepicker-week-end ","data-handler":"selectDay","data-event":"click","data-month":"11","data-year":"2026"}}
{"insert":116,"into":115,"tag":"a","attrs":{"class":"ui-state-default","href":"#","aria-current":"false","data-date":"19","display":"block"}}
{"insert":117,"into":116,"text":"19"}
{"insert":118,"into":53,"tag":"tr"}
{"insert":119,"into":118,"tag":"td","attrs":{"class":" ui-datepicker-week-end ","data-handler":"selectDay","data-event":"click","data-month":"11","data-year":"2026"}}
{"insert":120,"into":119,"tag":"a","attrs":{"class":"ui-state-default","href":"#","aria-current":"false","data-date":"20","display":"block"}}
{"insert":121,"into":120,"text":"20"}
{"insert":122,"into":118,"tag":"td","attrs":{"class":" ","data-handler":"selectDay","data-event":"click","data-month":"11","data-year":"2026"}}
{"insert":123,"into":122,"tag":"a","attrs":{"class":"ui-state-default","href":"#","aria-current":"false","data-date":"21","display":"block"}}
{"insert":124,"into":123,"text":"21"}
{"insert":125,"into":118,"tag":"td","attrs":{"class":" ","data-handler":"selectDay","data-event":"click","data-month":"11","data-year":"2026"}}
{"insert":126,"into":125,"tag":"a","attrs":{"class":"ui-state-default","href":"#","aria-current":"false","data-date":"22","display":"block"}}
{"insert":127,"into":126,"text":"22"}
{"insert":128,"into":118,"tag":"td","attrs":{"class":" ","data-handler":"selectDay","data-event":"click","data-month":"11","data-year":"2026"}}
{"insert":129,"into":128,"tag":"a","attrs":{"class":"ui-state-default","href":"#","aria-current":"false","data-date":"23","display":"block"}}
{"insert":130,"into":129,"text":"23"}
{"insert":131,"into":118,"tag":"td","attrs":{"class":" ","data-handler":"selectDay","data-event":"click","data-month":"11","data-year":"2026"}}
{"insert":132,"into":131,"tag":"a","attrs":{"class":"ui-state-default","href":"#","aria-current":"false","data-date":"24","display":"block"}}
{"insert":133,"into":132,"text":"24"}
{"insert":134,"into":118,"tag":"td","attrs":{"class":" ","data-handler":"selectDay","data-event":"click","data-month":"11","data-year":"2026"}}
{"insert":135,"into":134,"tag":"a","attrs":{"class":"ui-state-default","href":"#","aria-current":"false","data-date":"25","display":"block"}}
{"insert":136,"into":135,"text":"25"}
{"insert":137,"into":118,"tag":"td","attrs":{"class":" ui-datepicker-week-end ","data-handler":"selectDay","data-event":"click","data-month":"11","data-year":"2026"}}
{"insert":138,"into":137,"tag":"a","attrs":{"class":"ui-state-default","href":"#","aria-current":"false","data-date":"26","display":"block"}}
{"insert":139,"into":138,"text":"26"}
{"insert":140,"into":53,"tag":"tr"}
{"insert":141,"into":140,"tag":"td","attrs":{"class":" ui-datepicker-week-end ","data-handler":"selectDay","data-event":"click","data-month":"11","data-year":"2026"}}
{"insert":142,"into":141,"tag":"a","attrs":{"class":"ui-state-default","href":"#","aria-current":"false","data-date":"27","display":"block"}}
{"insert":143,"into":142,"text":"27"}
{"insert":144,"into":140,"tag":"td","attrs":{"class":" ","data-handler":"selectDay","data-event":"click","data-month":"11","data-year":"2026"}}
{"insert":145,"into":144,"tag":"a","attrs":{"class":"ui-state-default","href":"#","aria-current":"false","data-date":"28","display":"block"}}
{"insert":146,"into":145,"text":"28"}
{"insert":147,"into":140,"tag":"td","attrs":{"class":" ","data-handler":"selectDay","data-event":"click","data-month":"11","data-year":"2026"}}
{"insert":148,"into":147,"tag":"a","attrs":{"class":"ui-state-default","href":"#","aria-current":"false","data-date":"29","display":"block"}}
{"insert":149,"into":148,"text":"29"}
{"insert":150,"into":140,"tag":"td","attrs":{"class":" ","data-handler":"selectDay","data-event":"click","data-month":"11","data-year":"2026"}}
{"insert":151,"into":150,"tag":"a","attrs":{"class":"ui-state-default","href":"#","aria-current":"false","data-date":"30","display":"block"}}
{"insert":152,"into":151,"text":"30"}
{"insert":153,"into":140,"tag":"td","attrs":{"class":" ","data-handler":"selectDay","data-event":"click","data-month":"11","data-year":"2026"}}
{"insert":154,"into":153,"tag":"a","attrs":{"class":"ui-state-default","href":"#","aria-current":"false","data-date":"31","display":"block"}}
{"insert":155,"into":154,"text":"31"}
{"insert":156,"into":140,"tag":"td","attrs":{"class":" ui-datepicker-other-month ui-datepicker-unselectable ui-state-disabled"}}
{"insert":157,"into":156,"text":" "}
{"insert":158,"into":140,"tag":"td","attrs":{"class":" ui-datepicker-week-end ui-datepicker-other-month ui-datepicker-unselectable ui-state-disabled"}}
{"insert":159,"into":158,"text":" "}
{"set":15,"name":"style","value":"position: absolute; top: 37px; left: 56.7188px; z-index: 1; display: block; opacity: 0.00498817;"}
{"set":15,"name":"display","value":"block"}
{"frame":15,"rect":[57,37,280,213]}
{"frame":16,"rect":[61,41,272,37]}
{"frame":17,"rect":[64,44,29,29]}
{"frame":18,"rect":[70,51,16,16]}
{"runs":19,"list":[[0,4,4,-99929,51,41,19]]}
{"frame":20,"rect":[301,44,29,29]}
{"frame":21,"rect":[308,51,16,16]}
{"runs":22,"list":[[0,4,5,-99691,51,42,19]]}
{"frame":23,"rect":[99,45,196,29]}
{"frame":24,"rect":[126,49,92,19]}
{"runs":25,"list":[[0,8,6,126,49,92,19]]}
{"runs":26,"list":[[0,1,6,218,49,5,19]]}
{"frame":27,"rect":[223,49,45,19]}
{"runs":28,"list":[[0,4,6,223,49,45,19]]}
{"frame":29,"rect":[61,78,272,165]}
{"frame":30,"rect":[61,78,272,37]}
{"frame":31,"rect":[61,78,272,37]}
{"frame":32,"rect":[61,78,38,37]}
{"frame":33,"rect":[70,88,20,16]}
{"runs":34,"list":[[0,2,7,70,88,20,16]]}
{"frame":35,"rect":[99,78,43,37]}
{"frame":36,"rect":[108,88,24,16]}
{"runs":37,"list":[[0,2,8,108,88,24,16]]}
{"frame":38,"rect":[142,78,36,37]}
{"frame":39,"rect":[151,88,18,16]}
{"runs":40,"list":[[0,2,9,151,88,18,16]]}
{"frame":41,"rect":[178,78,44,37]}
{"frame":42,"rect":[187,88,25,16]}
{"runs":43,"list":[[0,2,10,187,88,25,16]]}
{"frame":44,"rect":[222,78,37,37]}
{"frame":45,"rect":[230,88,21,16]}
{"runs":46,"list":[[0,2,11,230,88,21,16]]}
{"frame":47,"rect":[259,78,37,37]}
{"frame":48,"rect":[269,88,16,16]}
{"runs":49,"list":[[0,2,12,269,88,16,16]]}
{"frame":50,"rect":[296,78,37,37]}
{"frame":51,"rect":[304,88,20,16]}
{"runs":52,"list":[[0,2,13,304,88,20,16]]}
{"frame":53,"rect":[61,115,272,128]}
{"frame":54,"rect":[61,115,272,25]}
{"frame":55,"rect":[61,115,38,25]}
{"runs":56,"list":[[0,1,14,62,119,4,16]]}
{"frame":57,"rect":[99,115,43,25]}
{"runs":58,"list":[[0,1,15,100,119,4,16]]}
{"frame":59,"rect":[142,115,36,25]}
{"frame":60,"rect":[143,116,34,23]}
{"runs":61,"list":[[0,1,16,164,119,9,16]]}
{"frame":62,"rect":[178,115,44,25]}
{"frame":63,"rect":[179,116,42,23]}
{"runs":64,"list":[[0,1,17,208,119,9,16]]}
{"frame":65,"rect":[222,115,37,25]}
{"frame":66,"rect":[223,116,35,23]}
{"runs":67,"list":[[0,1,18,245,119,9,16]]}
{"frame":68,"rect":[259,115,37,25]}
{"frame":69,"rect":[260,116,35,23]}
{"runs":70,"list":[[0,1,19,282,119,9,16]]}
{"frame":71,"rect":[296,115,37,25]}
{"frame":72,"rect":[297,116,35,23]}
{"runs":73,"list":[[0,1,20,319,119,9,16]]}
{"frame":74,"rect":[61,140,272,26]}
{"frame":75,"rect":[61,140,38,26]}
{"frame":76,"rect":[62,141,36,24]}
{"runs":77,"list":[[0,1,21,85,145,9,16]]}
{"frame":78,"rect":[99,140,43,26]}
{"frame":79,"rect":[100,141,41,24]}
{"runs":80,"list":[[0,1,22,128,145,9,16]]}
{"frame":81,"rect":[142,140,36,26]}
{"frame":82,"rect":[143,141,34,24]}
{"runs":83,"list":[[0,1,23,164,145,9,16]]}
{"frame":84,"rect":[178,140,44,26]}
{"frame":85,"rect":[179,141,42,24]}
{"runs":86,"list":[[0,1,24,208,145,9,16]]}
{"frame":87,"rect":[222,140,37,26]}
{"frame":88,"rect":[223,141,35,24]}
{"runs":89,"list":[[0,2,25,236,145,18,16]]}
{"frame":90,"rect":[259,140,37,26]}
{"frame":91,"rect":[260,141,35,24]}
{"runs":92,"list":[[0,2,26,272,145,19,16]]}
{"frame":93,"rect":[296,140,37,26]}
{"frame":94,"rect":[297,141,35,24]}
{"runs":95,"list":[[0,2,27,310,145,18,16]]}
{"frame":96,"rect":[61,166,272,26]}
{"frame":97,"rect":[61,166,38,26]}
{"frame":98,"rect":[62,167,36,24]}
{"runs":99,"list":[[0,2,28,76,171,18,16]]}
{"frame":100,"rect":[99,166,43,26]}
{"frame":101,"rect":[100,167,41,24]}
{"runs":102,"list":[[0,2,29,118,171,19,16]]}
{"frame":103,"rect":[142,166,36,26]}
{"frame":104,"rect":[143,167,34,24]}
{"runs":105,"list":[[0,2,30,155,171,18,16]]}
{"frame":106,"rect":[178,166,44,26]}
{"frame":107,"rect":[179,167,42,24]}
{"runs":108,"list":[[0,2,31,199,171,18,16]]}
{"frame":109,"rect":[222,166,37,26]}
{"frame":110,"rect":[223,167,35,24]}
{"runs":111,"list":[[0,2,32,236,171,18,16]]}
{"frame":112,"rect":[259,166,37,26]}
{"frame":113,"rect":[260,167,35,24]}
{"runs":114,"list":[[0,2,33,272,171,19,16]]}
{"frame":115,"rect":[296,166,37,26]}
{"frame":116,"rect":[297,167,35,24]}
{"runs":117,"list":[[0,2,34,310,171,18,16]]}
{"frame":118,"rect":[61,192,272,26]}
{"frame":119,"rect":[61,192,38,26]}
{"frame":120,"rect":[62,193,36,24]}
{"runs":121,"list":[[0,2,35,76,197,18,16]]}
{"frame":122,"rect":[99,192,43,26]}
{"frame":123,"rect":[100,193,41,24]}
{"runs":124,"list":[[0,2,36,118,197,19,16]]}
{"frame":125,"rect":[142,192,36,26]}
{"frame":126,"rect":[143,193,34,24]}
{"runs":127,"list":[[0,2,37,155,197,18,16]]}
{"frame":128,"rect":[178,192,44,26]}
{"frame":129,"rect":[179,193,42,24]}
{"runs":130,"list":[[0,2,38,199,197,18,16]]}
{"frame":131,"rect":[222,192,37,26]}
{"frame":132,"rect":[223,193,35,24]}
{"runs":133,"list":[[0,2,39,236,197,18,16]]}
{"frame":134,"rect":[259,192,37,26]}
{"frame":135,"rect":[260,193,35,24]}
{"runs":136,"list":[[0,2,40,272,197,19,16]]}
{"frame":137,"rect":[296,192,37,26]}
{"frame":138,"rect":[297,193,35,24]}
{"runs":139,"list":[[0,2,41,310,197,18,16]]}
{"frame":140,"rect":[61,218,272,25]}
{"frame":141,"rect":[61,218,38,25]}
{"frame":142,"rect":[62,219,36,23]}
{"runs":143,"list":[[0,2,42,76,222,18,16]]}
{"frame":144,"rect":[99,218,43,25]}
{"frame":145,"rect":[100,219,41,23]}
{"runs":146,"list":[[0,2,43,118,222,19,16]]}
{"frame":147,"rect":[142,218,36,25]}
{"frame":148,"rect":[143,219,34,23]}
{"runs":149,"list":[[0,2,44,155,222,18,16]]}
{"frame":150,"rect":[178,218,44,25]}
{"frame":151,"rect":[179,219,42,23]}
{"runs":152,"list":[[0,2,45,199,222,18,16]]}
{"frame":153,"rect":[222,218,37,25]}
{"frame":154,"rect":[223,219,35,23]}
{"runs":155,"list":[[0,2,46,236,222,18,16]]}
{"frame":156,"rect":[259,218,37,25]}
{"runs":157,"list":[[0,1,47,260,222,5,16]]}
{"frame":158,"rect":[296,218,37,25]}
{"runs":159,"list":[[0,1,48,297,222,4,16]]}
{"focus":7}
{"flush":true}
{"set":15,"name":"style","value":"position: absolute; top: 37px; left: 56.7188px; z-index: 1; display: block; opacity: 0.169344;"}
{"flush":true}
{"set":15,"name":"style","value":"position: absolute; top: 37px; left: 56.7188px; z-index: 1; display: block; opacity: 0.562667;"}
{"flush":true}
{"set":15,"name":"style","value":"position: absolute; top: 37px; left: 56.7188px; z-index: 1; display: block; opacity: 0.859063;"}
{"flush":true}
{"set":15,"name":"style","value":"position: absolute; top: 37px; left: 56.7188px; z-index: 1; display: block; opacity: 0.984292;"}
{"flush":true}
{"set":15,"name":"style","value":"position: absolute; top: 37px; left: 56.7188px; z-index: 1; display: block;"}
{"flush":true}
{"until":7}
{"await":7}
{"again":{"q":"focus"}}
{"again":{"q":"role","id":7}}
{"again":{"q":"name","id":7}}
{"again":{"q":"description","id":7}}
{"again":{"q":"states","id":7}}
{"again":{"q":"value","id":7}}
{"notices":true}
{"set":20,"name":"class","value":"ui-datepicker-next ui-corner-all ui-state-hover ui-datepicker-next-hover"}
{"frame":20,"rect":[300,43,31,31]}
{"runs":22,"list":[[0,4,5,-99691,51,37,19]]}
{"flush":true}
{"focus":0}
{"flush":true}
{"remove":16}
{"remove":29}
{"insert":160,"into":15,"tag":"div","attrs":{"class":"ui-datepicker-header ui-widget-header ui-helper-clearfix ui-corner-all","display":"block"}}
{"insert":161,"into":160,"tag":"a","attrs":{"class":"ui-datepicker-prev ui-corner-all","data-handler":"prev","data-event":"click","title":"Prev","display":"block"}}
{"insert":162,"into":161,"tag":"span","attrs":{"class":"ui-icon ui-icon-circle-triangle-w","display":"block"}}
{"insert":163,"into":162,"text":"Prev"}
{"insert":164,"into":160,"tag":"a","attrs":{"class":"ui-datepicker-next ui-corner-all ui-state-hover ui-datepicker-next-hover","data-handler":"next","data-event":"click","title":"Next","display":"block"}}
{"insert":165,"into":164,"tag":"span","attrs":{"class":"ui-icon ui-icon-circle-triangle-e","display":"block"}}
{"insert":166,"into":165,"text":"Next"}
{"insert":167,"into":160,"tag":"div","attrs":{"class":"ui-datepicker-title","display":"block"}}
{"insert":168,"into":167,"tag":"span","attrs":{"class":"ui-datepicker-month","display":"inline"}}
{"insert":169,"into":168,"text":"January"}
{"insert":170,"into":167,"text":" "}
{"insert":171,"into":167,"tag":"span","attrs":{"class":"ui-datepicker-year","display":"inline"}}
{"insert":172,"into":171,"text":"2027"}
{"insert":173,"into":15,"tag":"table","attrs":{"class":"ui-datepicker-calendar"}}
{"insert":174,"into":173,"tag":"thead"}
{"insert":175,"into":174,"tag":"tr"}
{"insert":176,"into":175,"tag":"th","attrs":{"scope":"col","class":"ui-datepicker-week-end"}}
{"insert":177,"into":176,"tag":"span","attrs":{"title":"Sunday","display":"inline"}}
{"insert":178,"into":177,"text":"Su"}
{"insert":179,"into":175,"tag":"th","attrs":{"scope":"col"}}
{"insert":180,"into":179,"tag":"span","attrs":{"title":"Monday","display":"inline"}}
{"insert":181,"into":180,"text":"Mo"}
{"insert":182,"into":175,"tag":"th","attrs":{"scope":"col"}}
{"insert":183,"into":182,"tag":"span","attrs":{"title":"Tuesday","display":"inline"}}
{"insert":184,"into":183,"text":"Tu"}
{"insert":185,"into":175,"tag":"th","attrs":{"scope":"col"}}
{"insert":186,"into":185,"tag":"span","attrs":{"title":"Wednesday","display":"inline"}}
{"insert":187,"into":186,"text":"We"}
{"insert":188,"into":175,"tag":"th","attrs":{"scope":"col"}}
{"insert":189,"into":188,"tag":"span","attrs":{"title":"Thursday","display":"inline"}}
{"insert":190,"into":189,"text":"Th"}
{"insert":191,"into":175,"tag":"th","attrs":{"scope":"col"}}
{"insert":192,"into":191,"tag":"span","attrs":{"title":"Friday","display":"inline"}}
{"insert":193,"into":192,"text":"Fr"}
{"insert":194,"into":175,"tag":"th","attrs":{"scope":"col","class":"ui-datepicker-week-end"}}
{"insert":195,"into":194,"tag":"span","attrs":{"title":"Saturday","display":"inline"}}
{"insert":196,"into":195,"text":"Sa"}
{"insert":197,"into":173,"tag":"tbody"}
{"insert":198,"into":197,"tag":"tr"}
{"insert":199,"into":198,"tag":"td","attrs":{"class":" ui-datepicker-week-end ui-datepicker-other-month ui-datepicker-unselectable ui-state-disabled"}}
{"insert":200,"into":199,"text":" "}
{"insert":201,"into":198,"tag":"td","attrs":{"class":" ui-datepicker-other-month ui-datepicker-unselectable ui-state-disabled"}}
{"insert":202,"into":201,"text":" "}
{"insert":203,"into":198,"tag":"td","attrs":{"class":" ui-datepicker-other-month ui-datepicker-unselectable ui-state-disabled"}}
{"insert":204,"into":203,"text":" "}
{"insert":205,"into":198,"tag":"td","attrs":{"class":" ui-datepicker-other-month ui-datepicker-unselectable ui-state-disabled"}}
{"insert":206,"into":205,"text":" "}
{"insert":207,"into":198,"tag":"td","attrs":{"class":" ui-datepicker-other-month ui-datepicker-unselectable ui-state-disabled"}}
{"insert":208,"into":207,"text":" "}
{"insert":209,"into":198,"tag":"td","attrs":{"class":" ","data-handler":"selectDay","data-event":"click","data-month":"0","data-year":"2027"}}
{"insert":210,"into":209,"tag":"a","attrs":{"class":"ui-state-default","href":"#","aria-current":"false","data-date":"1","display":"block"}}
{"insert":211,"into":210,"text":"1"}
{"insert":212,"into":198,"tag":"td","attrs":{"class":" ui-datepicker-week-end ","data-handler":"selectDay","data-event":"click","data-month":"0","data-year":"2027"}}
{"insert":213,"into":212,"tag":"a","attrs":{"class":"ui-state-default","href":"#","aria-current":"false","data-date":"2","display":"block"}}
{"insert":214,"into":213,"text":"2"}
{"insert":215,"into":197,"tag":"tr"}
{"insert":216,"into":215,"tag":"td","attrs":{"class":" ui-datepicker-week-end ","data-handler":"selectDay","data-event":"click","data-month":"0","data-year":"2027"}}
{"insert":217,"into":216,"tag":"a","attrs":{"class":"ui-state-default","href":"#","aria-current":"false","data-date":"3","display":"block"}}
{"insert":218,"into":217,"text":"3"}
{"insert":219,"into":215,"tag":"td","attrs":{"class":" ","data-handler":"selectDay","data-event":"click","data-month":"0","data-year":"2027"}}
{"insert":220,"into":219,"tag":"a","attrs":{"class":"ui-state-default","href":"#","aria-current":"false","data-date":"4","display":"block"}}
{"insert":221,"into":220,"text":"4"}
{"insert":222,"into":215,"tag":"td","attrs":{"class":" ","data-handler":"selectDay","data-event":"click","data-month":"0","data-year":"2027"}}
{"insert":223,"into":222,"tag":"a","attrs":{"class":"ui-state-default","href":"#","aria-current":"false","data-date":"5","display":"block"}}
{"insert":224,"into":223,"text":"5"}
{"insert":225,"into":215,"tag":"td","attrs":{"class":" ","data-handler":"selectDay","data-event":"click","data-month":"0","data-year":"2027"}}
{"insert":226,"into":225,"tag":"a","attrs":{"class":"ui-state-default","href":"#","aria-current":"false","data-date":"6","display":"block"}}
{"insert":227,"into":226,"text":"6"}
{"insert":228,"into":215,"tag":"td","attrs":{"class":" ","data-handler":"selectDay","data-event":"click","data-month":"0","data-year":"2027"}}
{"insert":229,"into":228,"tag":"a","attrs":{"class":"ui-state-default","href":"#","aria-current":"false","data-date":"7","display":"block"}}
{"insert":230,"into":229,"text":"7"}
{"insert":231,"into":215,"tag":"td","attrs":{"class":" ","data-handler":"selectDay","data-event":"click","data-month":"0","data-year":"2027"}}
{"insert":232,"into":231,"tag":"a","attrs":{"class":"ui-state-default","href":"#","aria-current":"false","data-date":"8","display":"block"}}
{"insert":233,"into":232,"text":"8"}
{"insert":234,"into":215,"tag":"td","attrs":{"class":" ui-datepicker-week-end ","data-handler":"selectDay","data-event":"click","data-month":"0","data-year":"2027"}}
{"insert":235,"into":234,"tag":"a","attrs":{"class":"ui-state-default","href":"#","aria-current":"false","data-date":"9","display":"block"}}
{"insert":236,"into":235,"text":"9"}
{"insert":237,"into":197,"tag":"tr"}
{"insert":238,"into":237,"tag":"td","attrs":{"class":" ui-datepicker-week-end ","data-handler":"selectDay","data-event":"click","data-month":"0","data-year":"2027"}}
{"insert":239,"into":238,"tag":"a","attrs":{"class":"ui-state-default","href":"#","aria-current":"false","data-date":"10","display":"block"}}
{"insert":240,"into":239,"text":"10"}
{"insert":241,"into":237,"tag":"td","attrs":{"class":" ","data-handler":"selectDay","data-event":"click","data-month":"0","data-year":"2027"}}
{"insert":242,"into":241,"tag":"a","attrs":{"class":"ui-state-default","href":"#","aria-current":"false","data-date":"11","display":"block"}}
{"insert":243,"into":242,"text":"11"}
{"insert":244,"into":237,"tag":"td","attrs":{"class":" ","data-handler":"selectDay","data-event":"click","data-month":"0","data-year":"2027"}}
{"insert":245,"into":244,"tag":"a","attrs":{"class":"ui-state-default","href":"#","aria-current":"false","data-date":"12","display":"block"}}
{"insert":246,"into":245,"text":"12"}
{"insert":247,"into":237,"tag":"td","attrs":{"class":" ","data-handler":"selectDay","data-event":"click","data-month":"0","data-year":"2027"}}
{"insert":248,"into":247,"tag":"a","attrs":{"class":"ui-state-default","href":"#","aria-current":"false","data-date":"13","display":"block"}}
{"insert":249,"into":248,"text":"13"}
{"insert":250,"into":237,"tag":"td","attrs":{"class":" ","data-handler":"selectDay","data-event":"click","data-month":"0","data-year":"2027"}}
{"insert":251,"into":250,"tag":"a","attrs":{"class":"ui-state-default","href":"#","aria-current":"false","data-date":"14","display":"block"}}
{"insert":252,"into":251,"text":"14"}
{"insert":253,"into":237,"tag":"td","attrs":{"class":" ","data-handler":"selectDay","data-event":"click","data-month":"0","data-year":"2027"}}
{"insert":254,"into":253,"tag":"a","attrs":{"class":"ui-state-default","href":"#","aria-current":"false","data-date":"15","display":"block"}}
{"insert":255,"into":254,"text":"15"}
{"insert":256,"into":237,"tag":"td","attrs":{"class":" ui-datepicker-week-end ","data-handler":"selectDay","data-event":"click","data-month":"0","data-year":"2027"}}
{"insert":257,"into":256,"tag":"a","attrs":{"class":"ui-state-default","href":"#","aria-current":"false","data-date":"16","display":"block"}}
{"insert":258,"into":257,"text":"16"}
{"insert":259,"into":197,"tag":"tr"}
{"insert":260,"into":259,"tag":"td","attrs":{"class":" ui-datepicker-week-end ","data-handler":"selectDay","data-event":"click","data-month":"0","data-year":"2027"}}
{"insert":261,"into":260,"tag":"a","attrs":{"class":"ui-state-default","href":"#","aria-current":"false","data-date":"17","display":"block"}}
{"insert":262,"into":261,"text":"17"}
{"insert":263,"into":259,"tag":"td","attrs":{"class":" ","data-handler":"selectDay","data-event":"click","data-month":"0","data-year":"2027"}}
{"insert":264,"into":263,"tag":"a","attrs":{"class":"ui-state-default","href":"#","aria-current":"false","data-date":"18","display":"block"}}
{"insert":265,"into":264,"text":"18"}
{"insert":266,"into":259,"tag":"td","attrs":{"class":" ","data-handler":"selectDay","data-event":"click","data-month":"0","data-year":"2027"}}
{"insert":267,"into":266,"tag":"a","attrs":{"class":"ui-state-default","href":"#","aria-current":"false","data-date":"19","display":"block"}}
{"insert":268,"into":267,"text":"19"}
{"insert":269,"into":259,"tag":"td","attrs":{"class":" ","data-handler":"selectDay","data-event":"click","data-month":"0","data-year":"2027"}}
{"insert":270,"into":269,"tag":"a","attrs":{"class":"ui-state-default","href":"#","aria-current":"false","data-date":"20","display":"block"}}
{"insert":271,"into":270,"text":"20"}
{"insert":272,"into":259,"tag":"td","attrs":{"class":" ","data-handler":"selectDay","data-event":"click","data-month":"0","data-year":"2027"}}
{"insert":273,"into":272,"tag":"a","attrs":{"class":"ui-state-default","href":"#","aria-current":"false","data-date":"21","display":"block"}}
{"insert":274,"into":273,"text":"21"}
{"insert":275,"into":259,"tag":"td","attrs":{"class":" ","data-handler":"selectDay","data-event":"click","data-month":"0","data-year":"2027"}}
{"insert":276,"into":275,"tag":"a","attrs":{"class":"ui-state-default","href":"#","aria-current":"false","data-date":"22","display":"block"}}
{"insert":277,"into":276,"text":"22"}
{"insert":278,"into":259,"tag":"td","attrs":{"class":" ui-datepicker-week-end ","data-handler":"selectDay","data-event":"click","data-month":"0","data-year":"2027"}}
{"insert":279,"into":278,"tag":"a","attrs":{"class":"ui-state-default","href":"#","aria-current":"false","data-date":"23","display":"block"}}
{"insert":280,"into":279,"text":"23"}
{"insert":281,"into":197,"tag":"tr"}
{"insert":282,"into":281,"tag":"td","attrs":{"class":" ui-datepicker-week-end ","data-handler":"selectDay","data-event":"click","data-month":"0","data-year":"2027"}}
{"insert":283,"into":282,"tag":"a","attrs":{"class":"ui-state-default","href":"#","aria-current":"false","data-date":"24","display":"block"}}
{"insert":284,"into":283,"text":"24"}
{"insert":285,"into":281,"tag":"td","attrs":{"class":" ","data-handler":"selectDay","data-event":"click","data-month":"0","data-year":"2027"}}
{"insert":286,"into":285,"tag":"a","attrs":{"class":"ui-state-default","href":"#","aria-current":"false","data-date":"25","display":"block"}}
{"insert":287,"into":286,"text":"25"}
{"insert":288,"into":281,"tag":"td","attrs":{"class":" ","data-handler":"selectDay","data-event":"click","data-month":"0","data-year":"2027"}}
{"insert":289,"into":288,"tag":"a","attrs":{"class":"ui-state-default","href":"#","aria-current":"false","data-date":"26","display":"block"}}
{"insert":290,"into":289,"text":"26"}
{"insert":291,"into":281,"tag":"td","attrs":{"class":" ","data-handler":"selectDay","data-event":"click","data-month":"0","data-year":"2027"}}
{"insert":292,"into":291,"tag":"a","attrs":{"class":"ui-state-default","href":"#","aria-current":"false","data-date":"27","display":"block"}}
{"insert":293,"into":292,"text":"27"}
{"insert":294,"into":281,"tag":"td","attrs":{"class":" ","data-handler":"selectDay","data-event":"click","data-month":"0","data-year":"2027"}}
{"insert":295,"into":294,"tag":"a","attrs":{"class":"ui-state-default","href":"#","aria-current":"false","data-date":"28","display":"block"}}
{"insert":296,"into":295,"text":"28"}
{"insert":297,"into":281,"tag":"td","attrs":{"class":" ","data-handler":"selectDay","data-event":"click","data-month":"0","data-year":"2027"}}
{"insert":298,"into":297,"tag":"a","attrs":{"class":"ui-state-default","href":"#","aria-current":"false","data-date":"29","display":"block"}}
{"insert":299,"into":298,"text":"29"}
{"insert":300,"into":281,"tag":"td","attrs":{"class":" ui-datepicker-week-end ","data-handler":"selectDay","data-event":"click","data-month":"0","data-year":"2027"}}
{"insert":301,"into":300,"tag":"a","attrs":{"class":"ui-state-default","href":"#","aria-current":"false","data-date":"30","display":"block"}}
{"insert":302,"into":301,"text":"30"}
{"insert":303,"into":197,"tag":"tr"}
{"insert":304,"into":303,"tag":"td","attrs":{"class":" ui-datepicker-week-end ","data-handler":"selectDay","data-event":"click","data-month":"0","data-year":"2027"}}
{"insert":305,"into":304,"tag":"a","attrs":{"class":"ui-state-default","href":"#","aria-current":"false","data-date":"31","display":"block"}}
{"insert":306,"into":305,"text":"31"}
{"insert":307,"into":303,"tag":"td","attrs":{"class":" ui-datepicker-other-month ui-datepicker-unselectable ui-state-disabled"}}
{"insert":308,"into":307,"text":" "}
{"insert":309,"into":303,"tag":"td","attrs":{"class":" ui-datepicker-other-month ui-datepicker-unselectable ui-state-disabled"}}
{"insert":310,"into":309,"text":" "}
{"insert":311,"into":303,"tag":"td","attrs":{"class":" ui-datepicker-other-month ui-datepicker-unselectable ui-state-disabled"}}
{"insert":312,"into":311,"text":" "}
{"insert":313,"into":303,"tag":"td","attrs":{"class":" ui-datepicker-other-month ui-datepicker-unselectable ui-state-disabled"}}
{"insert":314,"into":313,"text":" "}
{"insert":315,"into":303,"tag":"td","attrs":{"class":" ui-datepicker-other-month ui-datepicker-unselectable ui-state-disabled"}}
{"insert":316,"into":315,"text":" "}
{"insert":317,"into":303,"tag":"td","attrs":{"class":" ui-datepicker-week-end ui-datepicker-other-month ui-datepicker-unselectable ui-state-disabled"}}
{"insert":318,"into":317,"text":" "}
{"frame":15,"rect":[57,37,280,239]}
{"frame":160,"rect":[61,41,272,37]}
{"frame":161,"rect":[64,44,29,29]}
{"frame":162,"rect":[70,51,16,16]}
{"runs":163,"list":[[0,4,4,-99929,51,41,19]]}
{"frame":164,"rect":[300,43,31,31]}
{"frame":165,"rect":[308,51,16,16]}
{"runs":166,"list":[[0,4,5,-99691,51,37,19]]}
{"frame":167,"rect":[99,45,196,29]}
{"frame":168,"rect":[138,49,68,19]}
{"runs":169,"list":[[0,7,6,138,49,68,19]]}
{"runs":170,"list":[[0,1,6,206,49,6,19]]}
{"frame":171,"rect":[212,49,44,19]}
{"runs":172,"list":[[0,4,6,212,49,44,19]]}
{"frame":173,"rect":[61,78,272,191]}
{"frame":174,"rect":[61,78,272,37]}
{"frame":175,"rect":[61,78,272,37]}
{"frame":176,"rect":[61,78,38,37]}
{"frame":177,"rect":[70,88,20,16]}
{"runs":178,"list":[[0,2,7,70,88,20,16]]}
{"frame":179,"rect":[99,78,43,37]}
{"frame":180,"rect":[108,88,24,16]}
{"runs":181,"list":[[0,2,8,108,88,24,16]]}
{"frame":182,"rect":[142,78,36,37]}
{"frame":183,"rect":[151,88,18,16]}
{"runs":184,"list":[[0,2,9,151,88,18,16]]}
{"frame":185,"rect":[178,78,44,37]}
{"frame":186,"rect":[187,88,25,16]}
{"runs":187,"list":[[0,2,10,187,88,25,16]]}
{"frame":188,"rect":[222,78,37,37]}
{"frame":189,"rect":[230,88,21,16]}
{"runs":190,"list":[[0,2,11,230,88,21,16]]}
{"frame":191,"rect":[259,78,37,37]}
{"frame":192,"rect":[269,88,16,16]}
{"runs":193,"list":[[0,2,12,269,88,16,16]]}
{"frame":194,"rect":[296,78,37,37]}
{"frame":195,"rect":[304,88,20,16]}
{"runs":196,"list":[[0,2,13,304,88,20,16]]}
{"frame":197,"rect":[61,115,272,154]}
{"frame":198,"rect":[61,115,272,25]}
{"frame":199,"rect":[61,115,38,25]}
{"runs":200,"list":[[0,1,14,62,119,4,16]]}
{"frame":201,"rect":[99,115,43,25]}
{"runs":202,"list":[[0,1,15,100,119,4,16]]}
{"frame":203,"rect":[142,115,36,25]}
{"runs":204,"list":[[0,1,16,143,119,4,16]]}
{"frame":205,"rect":[178,115,44,25]}
{"runs":206,"list":[[0,1,17,179,119,5,16]]}
{"frame":207,"rect":[222,115,37,25]}
{"runs":208,"list":[[0,1,18,223,119,4,16]]}
{"frame":209,"rect":[259,115,37,25]}
{"frame":210,"rect":[260,116,35,23]}
{"runs":211,"list":[[0,1,19,282,119,9,16]]}
{"frame":212,"rect":[296,115,37,25]}
{"frame":213,"rect":[297,116,35,23]}
{"runs":214,"list":[[0,1,20,319,119,9,16]]}
{"frame":215,"rect":[61,140,272,26]}
{"frame":216,"rect":[61,140,38,26]}
{"frame":217,"rect":[62,141,36,24]}
{"runs":218,"list":[[0,1,21,85,145,9,16]]}
{"frame":219,"rect":[99,140,43,26]}
{"frame":220,"rect":[100,141,41,24]}
{"runs":221,"list":[[0,1,22,128,145,9,16]]}
{"frame":222,"rect":[142,140,36,26]}
{"frame":223,"rect":[143,141,34,24]}
{"runs":224,"list":[[0,1,23,164,145,9,16]]}
{"frame":225,"rect":[178,140,44,26]}
{"frame":226,"rect":[179,141,42,24]}
{"runs":227,"list":[[0,1,24,208,145,9,16]]}
{"frame":228,"rect":[222,140,37,26]}
{"frame":229,"rect":[223,141,35,24]}
{"runs":230,"list":[[0,1,25,245,145,9,16]]}
{"frame":231,"rect":[259,140,37,26]}
{"frame":232,"rect":[260,141,35,24]}
{"runs":233,"list":[[0,1,26,282,145,9,16]]}
{"frame":234,"rect":[296,140,37,26]}
{"frame":235,"rect":[297,141,35,24]}
{"runs":236,"list":[[0,1,27,319,145,9,16]]}
{"frame":237,"rect":[61,166,272,26]}
{"frame":238,"rect":[61,166,38,26]}
{"frame":239,"rect":[62,167,36,24]}
{"runs":240,"list":[[0,2,28,76,171,18,16]]}
{"frame":241,"rect":[99,166,43,26]}
{"frame":242,"rect":[100,167,41,24]}
{"runs":243,"list":[[0,2,29,118,171,19,16]]}
{"frame":244,"rect":[142,166,36,26]}
{"frame":245,"rect":[143,167,34,24]}
{"runs":246,"list":[[0,2,30,155,171,18,16]]}
{"frame":247,"rect":[178,166,44,26]}
{"frame":248,"rect":[179,167,42,24]}
{"runs":249,"list":[[0,2,31,199,171,18,16]]}
{"frame":250,"rect":[222,166,37,26]}
{"frame":251,"rect":[223,167,35,24]}
{"runs":252,"list":[[0,2,32,236,171,18,16]]}
{"frame":253,"rect":[259,166,37,26]}
{"frame":254,"rect":[260,167,35,24]}
{"runs":255,"list":[[0,2,33,272,171,19,16]]}
{"frame":256,"rect":[296,166,37,26]}
{"frame":257,"rect":[297,167,35,24]}
{"runs":258,"list":[[0,2,34,310,171,18,16]]}
{"frame":259,"rect":[61,192,272,26]}
{"frame":260,"rect":[61,192,38,26]}
{"frame":261,"rect":[62,193,36,24]}
{"runs":262,"list":[[0,2,35,76,197,18,16]]}
{"frame":263,"rect":[99,192,43,26]}
{"frame":264,"rect":[100,193,41,24]}
{"runs":265,"list":[[0,2,36,118,197,19,16]]}
{"frame":266,"rect":[142,192,36,26]}
{"frame":267,"rect":[143,193,34,24]}
{"runs":268,"list":[[0,2,37,155,197,18,16]]}
{"frame":269,"rect":[178,192,44,26]}
{"frame":270,"rect":[179,193,42,24]}
{"runs":271,"list":[[0,2,38,199,197,18,16]]}
{"frame":272,"rect":[222,192,37,26]}
{"frame":273,"rect":[223,193,35,24]}
{"runs":274,"list":[[0,2,39,236,197,18,16]]}
{"frame":275,"rect":[259,192,37,26]}
{"frame":276,"rect":[260,193,35,24]}
{"runs":277,"list":[[0,2,40,272,197,19,16]]}
{"frame":278,"rect":[296,192,37,26]}
{"frame":279,"rect":[297,193,35,24]}
{"runs":280,"list":[[0,2,41,310,197,18,16]]}
{"frame":281,"rect":[61,218,272,25]}
{"frame":282,"rect":[61,218,38,25]}
{"frame":283,"rect":[62,219,36,23]}
{"runs":284,"list":[[0,2,42,76,222,18,16]]}
{"frame":285,"rect":[99,218,43,25]}
{"frame":286,"rect":[100,219,41,23]}
{"runs":287,"list":[[0,2,43,118,222,19,16]]}
{"frame":288,"rect":[142,218,36,25]}
{"frame":289,"rect":[143,219,34,23]}
{"runs":290,"list":[[0,2,44,155,222,18,16]]}
{"frame":291,"rect":[178,218,44,25]}
{"frame":292,"rect":[179,219,42,23]}
{"runs":293,"list":[[0,2,45,199,222,18,16]]}
{"frame":294,"rect":[222,218,37,25]}
{"frame":295,"rect":[223,219,35,23]}
{"runs":296,"list":[[0,2,46,236,222,18,16]]}
{"frame":297,"rect":[259,218,37,25]}
{"frame":298,"rect":[260,219,35,23]}
{"runs":299,"list":[[0,2,47,272,222,19,16]]}
{"frame":300,"rect":[296,218,37,25]}
{"frame":301,"rect":[297,219,35,23]}
{"runs":302,"list":[[0,2,48,310,222,18,16]]}
{"frame":303,"rect":[61,243,272,26]}
{"frame":304,"rect":[61,243,38,26]}
{"frame":305,"rect":[62,244,36,24]}
{"runs":306,"list":[[0,2,49,76,248,18,16]]}
{"frame":307,"rect":[99,243,43,26]}
{"runs":308,"list":[[0,1,50,100,248,4,16]]}
{"frame":309,"rect":[142,243,36,26]}
{"runs":310,"list":[[0,1,51,143,248,4,16]]}
{"frame":311,"rect":[178,243,44,26]}
{"runs":312,"list":[[0,1,52,179,248,5,16]]}
{"frame":313,"rect":[222,243,37,26]}
{"runs":314,"list":[[0,1,53,223,248,4,16]]}
{"frame":315,"rect":[259,243,37,26]}
{"runs":316,"list":[[0,1,54,260,248,5,16]]}
{"frame":317,"rect":[296,243,37,26]}
{"runs":318,"list":[[0,1,55,297,248,4,16]]}
{"focus":7}
{"flush":true}
{"until":10}
{"await":10}
{"again":{"q":"focus"}}
{"again":{"q":"role","id":7}}
{"again":{"q":"name","id":7}}
{"again":{"q":"description","id":7}}
{"again":{"q":"states","id":7}}
{"again":{"q":"value","id":7}}
{"notices":true}
{"remove":160}
{"remove":173}
{"insert":319,"into":15,"tag":"div","attrs":{"class":"ui-datepicker-header ui-widget-header ui-helper-clearfix ui-corner-all","display":"block"}}
{"insert":320,"into":319,"tag":"a","attrs":{"class":"ui-datepicker-prev ui-corner-all","data-handler":"prev","data-event":"click","title":"Prev","display":"block"}}
{"insert":321,"into":320,"tag":"span","attrs":{"class":"ui-icon ui-icon-circle-triangle-w","display":"block"}}
{"insert":322,"into":321,"text":"Prev"}
{"insert":323,"into":319,"tag":"a","attrs":{"class":"ui-datepicker-next ui-corner-all ui-state-hover ui-datepicker-next-hover","data-handler":"next","data-event":"click","title":"Next","display":"block"}}
{"insert":324,"into":323,"tag":"span","attrs":{"class":"ui-icon ui-icon-circle-triangle-e","display":"block"}}
{"insert":325,"into":324,"text":"Next"}
{"insert":326,"into":319,"tag":"div","attrs":{"class":"ui-datepicker-title","display":"block"}}
{"insert":327,"into":326,"tag":"span","attrs":{"class":"ui-datepicker-month","display":"inline"}}
{"insert":328,"into":327,"text":"February"}
{"insert":329,"into":326,"text":" "}
{"insert":330,"into":326,"tag":"span","attrs":{"class":"ui-datepicker-year","display":"inline"}}
{"insert":331,"into":330,"text":"2027"}
{"insert":332,"into":15,"tag":"table","attrs":{"class":"ui-datepicker-calendar"}}
{"insert":333,"into":332,"tag":"thead"}
{"insert":334,"into":333,"tag":"tr"}
{"insert":335,"into":334,"tag":"th","attrs":{"scope":"col","class":"ui-datepicker-week-end"}}
{"insert":336,"into":335,"tag":"span","attrs":{"title":"Sunday","display":"inline"}}
{"insert":337,"into":336,"text":"Su"}
{"insert":338,"into":334,"tag":"th","attrs":{"scope":"col"}}
{"insert":339,"into":338,"tag":"span","attrs":{"title":"Monday","display":"inline"}}
{"insert":340,"into":339,"text":"Mo"}
{"insert":341,"into":334,"tag":"th","attrs":{"scope":"col"}}
{"insert":342,"into":341,"tag":"span","attrs":{"title":"Tuesday","display":"inline"}}
{"insert":343,"into":342,"text":"Tu"}
{"insert":344,"into":334,"tag":"th","attrs":{"scope":"col"}}
{"insert":345,"into":344,"tag":"span","attrs":{"title":"Wednesday","display":"inline"}}
{"insert":346,"into":345,"text":"We"}
{"insert":347,"into":334,"tag":"th","attrs":{"scope":"col"}}
{"insert":348,"into":347,"tag":"span","attrs":{"title":"Thursday","display":"inline"}}
{"insert":349,"into":348,"text":"Th"}
{"insert":350,"into":334,"tag":"th","attrs":{"scope":"col"}}
{"insert":351,"into":350,"tag":"span","attrs":{"title":"Friday","display":"inline"}}
{"insert":352,"into":351,"text":"Fr"}
{"insert":353,"into":334,"tag":"th","attrs":{"scope":"col","class":"ui-datepicker-week-end"}}
{"insert":354,"into":353,"tag":"span","attrs":{"title":"Saturday","display":"inline"}}
{"insert":355,"into":354,"text":"Sa"}
{"insert":356,"into":332,"tag":"tbody"}
{"insert":357,"into":356,"tag":"tr"}
{"insert":358,"into":357,"tag":"td","attrs":{"class":" ui-datepicker-week-end ui-datepicker-other-month ui-datepicker-unselectable ui-state-disabled"}}
{"insert":359,"into":358,"text":" "}
{"insert":360,"into":357,"tag":"td","attrs":{"class":" ","data-handler":"selectDay","data-event":"click","data-month":"1","data-year":"2027"}}
{"insert":361,"into":360,"tag":"a","attrs":{"class":"ui-state-default","href":"#","aria-current":"false","data-date":"1","display":"block"}}
{"insert":362,"into":361,"text":"1"}
{"insert":363,"into":357,"tag":"td","attrs":{"class":" ","data-handler":"selectDay","data-event":"click","data-month":"1","data-year":"2027"}}
{"insert":364,"into":363,"tag":"a","attrs":{"class":"ui-state-default","href":"#","aria-current":"false","data-date":"2","display":"block"}}
{"insert":365,"into":364,"text":"2"}
{"insert":366,"into":357,"tag":"td","attrs":{"class":" ","data-handler":"selectDay","data-event":"click","data-month":"1","data-year":"2027"}}
{"insert":367,"into":366,"tag":"a","attrs":{"class":"ui-state-default","href":"#","aria-current":"false","data-date":"3","display":"block"}}
{"insert":368,"into":367,"text":"3"}
{"insert":369,"into":357,"tag":"td","attrs":{"class":" ","data-handler":"selectDay","data-event":"click","data-month":"1","data-year":"2027"}}
{"insert":370,"into":369,"tag":"a","attrs":{"class":"ui-state-default","href":"#","aria-current":"false","data-date":"4","display":"block"}}
{"insert":371,"into":370,"text":"4"}
{"insert":372,"into":357,"tag":"td","attrs":{"class":" ","data-handler":"selectDay","data-event":"click","data-month":"1","data-year":"2027"}}
{"insert":373,"into":372,"tag":"a","attrs":{"class":"ui-state-default","href":"#","aria-current":"false","data-date":"5","display":"block"}}
{"insert":374,"into":373,"text":"5"}
{"insert":375,"into":357,"tag":"td","attrs":{"class":" ui-datepicker-week-end ","data-handler":"selectDay","data-event":"click","data-month":"1","data-year":"2027"}}
{"insert":376,"into":375,"tag":"a","attrs":{"class":"ui-state-default","href":"#","aria-current":"false","data-date":"6","display":"block"}}
{"insert":377,"into":376,"text":"6"}
{"insert":378,"into":356,"tag":"tr"}
{"insert":379,"into":378,"tag":"td","attrs":{"class":" ui-datepicker-week-end ","data-handler":"selectDay","data-event":"click","data-month":"1","data-year":"2027"}}
{"insert":380,"into":379,"tag":"a","attrs":{"class":"ui-state-default","href":"#","aria-current":"false","data-date":"7","display":"block"}}
{"insert":381,"into":380,"text":"7"}
{"insert":382,"into":378,"tag":"td","attrs":{"class":" ","data-handler":"selectDay","data-event":"click","data-month":"1","data-year":"2027"}}
{"insert":383,"into":382,"tag":"a","attrs":{"class":"ui-state-default","href":"#","aria-current":"false","data-date":"8","display":"block"}}
{"insert":384,"into":383,"text":"8"}
{"insert":385,"into":378,"tag":"td","attrs":{"class":" ","data-handler":"selectDay","data-event":"click","data-month":"1","data-year":"2027"}}
{"insert":386,"into":385,"tag":"a","attrs":{"class":"ui-state-default","href":"#","aria-current":"false","data-date":"9","display":"block"}}
{"insert":387,"into":386,"text":"9"}
{"insert":388,"into":378,"tag":"td","attrs":{"class":" ","data-handler":"selectDay","data-event":"click","data-month":"1","data-year":"2027"}}
{"insert":389,"into":388,"tag":"a","attrs":{"class":"ui-state-default","href":"#","aria-current":"false","data-date":"10","display":"block"}}
{"insert":390,"into":389,"text":"10"}
{"insert":391,"into":378,"tag":"td","attrs":{"class":" ","data-handler":"selectDay","data-event":"click","data-month":"1","data-year":"2027"}}
{"insert":392,"into":391,"tag":"a","attrs":{"class":"ui-state-default","href":"#","aria-current":"false","data-date":"11","display":"block"}}
{"insert":393,"into":392,"text":"11"}
{"insert":394,"into":378,"tag":"td","attrs":{"class":" ","data-handler":"selectDay","data-event":"click","data-month":"1","data-year":"2027"}}
{"insert":395,"into":394,"tag":"a","attrs":{"class":"ui-state-default","href":"#","aria-current":"false","data-date":"12","display":"block"}}
{"insert":396,"into":395,"text":"12"}
{"insert":397,"into":378,"tag":"td","attrs":{"class":" ui-datepicker-week-end ","data-handler":"selectDay","data-event":"click","data-month":"1","data-year":"2027"}}
{"insert":398,"into":397,"tag":"a","attrs":{"class":"ui-state-default","href":"#","aria-current":"false","data-date":"13","display":"block"}}
{"insert":399,"into":398,"text":"13"}
{"insert":400,"into":356,"tag":"tr"}
{"insert":401,"into":400,"tag":"td","attrs":{"class":" ui-datepicker-week-end ","data-handler":"selectDay","data-event":"click","data-month":"1","data-year":"2027"}}
{"insert":402,"into":401,"tag":"a","attrs":{"class":"ui-state-default","href":"#","aria-current":"false","data-date":"14","display":"block"}}
{"insert":403,"into":402,"text":"14"}
{"insert":404,"into":400,"tag":"td","attrs":{"class":" ","data-handler":"selectDay","data-event":"click","data-month":"1","data-year":"2027"}}
{"insert":405,"into":404,"tag":"a","attrs":{"class":"ui-state-default","href":"#","aria-current":"false","data-date":"15","display":"block"}}
{"insert":406,"into":405,"text":"15"}
{"insert":407,"into":400,"tag":"td","attrs":{"class":" ","data-handler":"selectDay","data-event":"click","data-month":"1","data-year":"2027"}}
{"insert":408,"into":407,"tag":"a","attrs":{"class":"ui-state-default","href":"#","aria-current":"false","data-date":"16","display":"block"}}
{"insert":409,"into":408,"text":"16"}
{"insert":410,"into":400,"tag":"td","attrs":{"class":" ","data-handler":"selectDay","data-event":"click","data-month":"1","data-year":"2027"}}
{"insert":411,"into":410,"tag":"a","attrs":{"class":"ui-state-default","href":"#","aria-current":"false","data-date":"17","display":"block"}}
{"insert":412,"into":411,"text":"17"}
{"insert":413,"into":400,"tag":"td","attrs":{"class":" ","data-handler":"selectDay","data-event":"click","data-month":"1","data-year":"2027"}}
{"insert":414,"into":413,"tag":"a","attrs":{"class":"ui-state-default","href":"#","aria-current":"false","data-date":"18","display":"block"}}
{"insert":415,"into":414,"text":"18"}
{"insert":416,"into":400,"tag":"td","attrs":{"class":" ","data-handler":"selectDay","data-event":"click","data-month":"1","data-year":"2027"}}
{"insert":417,"into":416,"tag":"a","attrs":{"class":"ui-state-default","href":"#","aria-current":"false","data-date":"19","display":"block"}}
{"insert":418,"into":417,"text":"19"}
{"insert":419,"into":400,"tag":"td","attrs":{"class":" ui-datepicker-week-end ","data-handler":"selectDay","data-event":"click","data-month":"1","data-year":"2027"}}
{"insert":420,"into":419,"tag":"a","attrs":{"class":"ui-state-default","href":"#","aria-current":"false","data-date":"20","display":"block"}}
{"insert":421,"into":420,"text":"20"}
{"insert":422,"into":356,"tag":"tr"}
{"insert":423,"into":422,"tag":"td","attrs":{"class":" ui-datepicker-week-end ","data-handler":"selectDay","data-event":"click","data-month":"1","data-year":"2027"}}
{"insert":424,"into":423,"tag":"a","attrs":{"class":"ui-state-default","href":"#","aria-current":"false","data-date":"21","display":"block"}}
{"insert":425,"into":424,"text":"21"}
{"insert":426,"into":422,"tag":"td","attrs":{"class":" ","data-handler":"selectDay","data-event":"click","data-month":"1","data-year":"2027"}}
{"insert":427,"into":426,"tag":"a","attrs":{"class":"ui-state-default","href":"#","aria-current":"false","data-date":"22","display":"block"}}
{"insert":428,"into":427,"text":"22"}
{"insert":429,"into":422,"tag":"td","attrs":{"class":" ","data-handler":"selectDay","data-event":"click","data-month":"1","data-year":"2027"}}
{"insert":430,"into":429,"tag":"a","attrs":{"class":"ui-state-default","href":"#","aria-current":"false","data-date":"23","display":"block"}}
{"insert":431,"into":430,"text":"23"}
{"insert":432,"into":422,"tag":"td","attrs":{"class":" ","data-handler":"selectDay","data-event":"click","data-month":"1","data-year":"2027"}}
{"insert":433,"into":432,"tag":"a","attrs":{"class":"ui-state-default","href":"#","aria-current":"false","data-date":"24","display":"block"}}
{"insert":434,"into":433,"text":"24"}
{"insert":435,"into":422,"tag":"td","attrs":{"class":" ","data-handler":"selectDay","data-event":"click","data-month":"1","data-year":"2027"}}
{"insert":436,"into":435,"tag":"a","attrs":{"class":"ui-state-default","href":"#","aria-current":"false","data-date":"25","display":"block"}}
{"insert":437,"into":436,"text":"25"}
{"insert":438,"into":422,"tag":"td","attrs":{"class":" ","data-handler":"selectDay","data-event":"click","data-month":"1","data-year":"2027"}}
{"insert":439,"into":438,"tag":"a","attrs":{"class":"ui-state-default","href":"#","aria-current":"false","data-date":"26","display":"block"}}
{"insert":440,"into":439,"text":"26"}
{"insert":441,"into":422,"tag":"td","attrs":{"class":" ui-datepicker-week-end ","data-handler":"selectDay","data-event":"click","data-month":"1","data-year":"2027"}}
{"insert":442,"into":441,"tag":"a","attrs":{"class":"ui-state-default","href":"#","aria-current":"false","data-date":"27","display":"block"}}
{"insert":443,"into":442,"text":"27"}
{"insert":444,"into":356,"tag":"tr"}
{"insert":445,"into":444,"tag":"td","attrs":{"class":" ui-datepicker-week-end ","data-handler":"selectDay","data-event":"click","data-month":"1","data-year":"2027"}}
{"insert":446,"into":445,"tag":"a","attrs":{"class":"ui-state-default","href":"#","aria-current":"false","data-date":"28","display":"block"}}
{"insert":447,"into":446,"text":"28"}
{"insert":448,"into":444,"tag":"td","attrs":{"class":" ui-datepicker-other-month ui-datepicker-unselectable ui-state-disabled"}}
{"insert":449,"into":448,"text":" "}
{"insert":450,"into":444,"tag":"td","attrs":{"class":" ui-datepicker-other-month ui-datepicker-unselectable ui-state-disabled"}}
{"insert":451,"into":450,"text":" "}
{"insert":452,"into":444,"tag":"td","attrs":{"class":" ui-datepicker-other-month ui-datepicker-unselectable ui-state-disabled"}}
{"insert":453,"into":452,"text":" "}
{"insert":454,"into":444,"tag":"td","attrs":{"class":" ui-datepicker-other-month ui-datepicker-unselectable ui-state-disabled"}}
{"insert":455,"into":454,"text":" "}
{"insert":456,"into":444,"tag":"td","attrs":{"class":" ui-datepicker-other-month ui-datepicker-unselectable ui-state-disabled"}}
{"insert":457,"into":456,"text":" "}
{"insert":458,"into":444,"tag":"td","attrs":{"class":" ui-datepicker-week-end ui-datepicker-other-month ui-datepicker-unselectable ui-state-disabled"}}
{"insert":459,"into":458,"text":" "}
{"frame":15,"rect":[57,37,280,213]}
{"frame":319,"rect":[61,41,272,37]}
{"frame":320,"rect":[64,44,29,29]}
{"frame":321,"rect":[70,51,16,16]}
{"runs":322,"list":[[0,4,4,-99929,51,41,19]]}
{"frame":323,"rect":[300,43,31,31]}
{"frame":324,"rect":[308,51,16,16]}
{"runs":325,"list":[[0,4,5,-99691,51,37,19]]}
{"frame":326,"rect":[99,45,196,29]}
{"frame":327,"rect":[131,49,81,19]}
{"runs":328,"list":[[0,8,6,131,49,81,19]]}
{"runs":329,"list":[[0,1,6,212,49,6,19]]}
{"frame":330,"rect":[218,49,44,19]}
{"runs":331,"list":[[0,4,6,218,49,44,19]]}
{"frame":332,"rect":[61,78,272,165]}
{"frame":333,"rect":[61,78,272,37]}
{"frame":334,"rect":[61,78,272,37]}
{"frame":335,"rect":[61,78,38,37]}
{"frame":336,"rect":[70,88,20,16]}
{"runs":337,"list":[[0,2,7,70,88,20,16]]}
{"frame":338,"rect":[99,78,43,37]}
{"frame":339,"rect":[108,88,24,16]}
{"runs":340,"list":[[0,2,8,108,88,24,16]]}
{"frame":341,"rect":[142,78,36,37]}
{"frame":342,"rect":[151,88,18,16]}
{"runs":343,"list":[[0,2,9,151,88,18,16]]}
{"frame":344,"rect":[178,78,44,37]}
{"frame":345,"rect":[187,88,25,16]}
{"runs":346,"list":[[0,2,10,187,88,25,16]]}
{"frame":347,"rect":[222,78,37,37]}
{"frame":348,"rect":[230,88,21,16]}
{"runs":349,"list":[[0,2,11,230,88,21,16]]}
{"frame":350,"rect":[259,78,37,37]}
{"frame":351,"rect":[269,88,16,16]}
{"runs":352,"list":[[0,2,12,269,88,16,16]]}
{"frame":353,"rect":[296,78,37,37]}
{"frame":354,"rect":[304,88,20,16]}
{"runs":355,"list":[[0,2,13,304,88,20,16]]}
{"frame":356,"rect":[61,115,272,128]}
{"frame":357,"rect":[61,115,272,25]}
{"frame":358,"rect":[61,115,38,25]}
{"runs":359,"list":[[0,1,14,62,119,4,16]]}
{"frame":360,"rect":[99,115,43,25]}
{"frame":361,"rect":[100,116,41,23]}
{"runs":362,"list":[[0,1,15,128,119,9,16]]}
{"frame":363,"rect":[142,115,36,25]}
{"frame":364,"rect":[143,116,34,23]}
{"runs":365,"list":[[0,1,16,164,119,9,16]]}
{"frame":366,"rect":[178,115,44,25]}
{"frame":367,"rect":[179,116,42,23]}
{"runs":368,"list":[[0,1,17,208,119,9,16]]}
{"frame":369,"rect":[222,115,37,25]}
{"frame":370,"rect":[223,116,35,23]}
{"runs":371,"list":[[0,1,18,245,119,9,16]]}
{"frame":372,"rect":[259,115,37,25]}
{"frame":373,"rect":[260,116,35,23]}
{"runs":374,"list":[[0,1,19,282,119,9,16]]}
{"frame":375,"rect":[296,115,37,25]}
{"frame":376,"rect":[297,116,35,23]}
{"runs":377,"list":[[0,1,20,319,119,9,16]]}
{"frame":378,"rect":[61,140,272,26]}
{"frame":379,"rect":[61,140,38,26]}
{"frame":380,"rect":[62,141,36,24]}
{"runs":381,"list":[[0,1,21,85,145,9,16]]}
{"frame":382,"rect":[99,140,43,26]}
{"frame":383,"rect":[100,141,41,24]}
{"runs":384,"list":[[0,1,22,128,145,9,16]]}
{"frame":385,"rect":[142,140,36,26]}
{"frame":386,"rect":[143,141,34,24]}
{"runs":387,"list":[[0,1,23,164,145,9,16]]}
{"frame":388,"rect":[178,140,44,26]}
{"frame":389,"rect":[179,141,42,24]}
{"runs":390,"list":[[0,2,24,199,145,18,16]]}
{"frame":391,"rect":[222,140,37,26]}
{"frame":392,"rect":[223,141,35,24]}
{"runs":393,"list":[[0,2,25,236,145,18,16]]}
{"frame":394,"rect":[259,140,37,26]}
{"frame":395,"rect":[260,141,35,24]}
{"runs":396,"list":[[0,2,26,272,145,19,16]]}
{"frame":397,"rect":[296,140,37,26]}
{"frame":398,"rect":[297,141,35,24]}
{"runs":399,"list":[[0,2,27,310,145,18,16]]}
{"frame":400,"rect":[61,166,272,26]}
{"frame":401,"rect":[61,166,38,26]}
{"frame":402,"rect":[62,167,36,24]}
{"runs":403,"list":[[0,2,28,76,171,18,16]]}
{"frame":404,"rect":[99,166,43,26]}
{"frame":405,"rect":[100,167,41,24]}
{"runs":406,"list":[[0,2,29,118,171,19,16]]}
{"frame":407,"rect":[142,166,36,26]}
{"frame":408,"rect":[143,167,34,24]}
{"runs":409,"list":[[0,2,30,155,171,18,16]]}
{"frame":410,"rect":[178,166,44,26]}
{"frame":411,"rect":[179,167,42,24]}
{"runs":412,"list":[[0,2,31,199,171,18,16]]}
{"frame":413,"rect":[222,166,37,26]}
{"frame":414,"rect":[223,167,35,24]}
{"runs":415,"list":[[0,2,32,236,171,18,16]]}
{"frame":416,"rect":[259,166,37,26]}
{"frame":417,"rect":[260,167,35,24]}
{"runs":418,"list":[[0,2,33,272,171,19,16]]}
{"frame":419,"rect":[296,166,37,26]}
{"frame":420,"rect":[297,167,35,24]}
{"runs":421,"list":[[0,2,34,310,171,18,16]]}
{"frame":422,"rect":[61,192,272,26]}
{"frame":423,"rect":[61,192,38,26]}
{"frame":424,"rect":[62,193,36,24]}
{"runs":425,"list":[[0,2,35,76,197,18,16]]}
{"frame":426,"rect":[99,192,43,26]}
{"frame":427,"rect":[100,193,41,24]}
{"runs":428,"list":[[0,2,36,118,197,19,16]]}
{"frame":429,"rect":[142,192,36,26]}
{"frame":430,"rect":[143,193,34,24]}
{"runs":431,"list":[[0,2,37,155,197,18,16]]}
{"frame":432,"rect":[178,192,44,26]}
{"frame":433,"rect":[179,193,42,24]}
{"runs":434,"list":[[0,2,38,199,197,18,16]]}
{"frame":435,"rect":[222,192,37,26]}
{"frame":436,"rect":[223,193,35,24]}
{"runs":437,"list":[[0,2,39,236,197,18,16]]}
{"frame":438,"rect":[259,192,37,26]}
{"frame":439,"rect":[260,193,35,24]}
{"runs":440,"list":[[0,2,40,272,197,19,16]]}
{"frame":441,"rect":[296,192,37,26]}
{"frame":442,"rect":[297,193,35,24]}
{"runs":443,"list":[[0,2,41,310,197,18,16]]}
{"frame":444,"rect":[61,218,272,25]}
{"frame":445,"rect":[61,218,38,25]}
{"frame":446,"rect":[62,219,36,23]}
{"runs":447,"list":[[0,2,42,76,222,18,16]]}
{"frame":448,"rect":[99,218,43,25]}
{"runs":449,"list":[[0,1,43,100,222,4,16]]}
{"frame":450,"rect":[142,218,36,25]}
{"runs":451,"list":[[0,1,44,143,222,4,16]]}
{"frame":452,"rect":[178,218,44,25]}
{"runs":453,"list":[[0,1,45,179,222,5,16]]}
{"frame":454,"rect":[222,218,37,25]}
{"runs":455,"list":[[0,1,46,223,222,4,16]]}
{"frame":456,"rect":[259,218,37,25]}
{"runs":457,"list":[[0,1,47,260,222,5,16]]}
{"frame":458,"rect":[296,218,37,25]}
{"runs":459,"list":[[0,1,48,297,222,4,16]]}
{"flush":true}
{"until":11}
{"await":11}
{"again":{"q":"focus"}}
{"again":{"q":"role","id":7}}
{"again":{"q":"name","id":7}}
{"again":{"q":"description","id":7}}
{"again":{"q":"states","id":7}}
{"again":{"q":"value","id":7}}
{"notices":true}
{"set":320,"name":"class","value":"ui-datepicker-prev ui-corner-all ui-state-hover ui-datepicker-prev-hover"}
{"frame":320,"rect":[63,43,31,31]}
{"runs":322,"list":[[0,4,4,-99929,51,35,19]]}
{"set":323,"name":"class","value":"ui-datepicker-next ui-corner-all"}
{"frame":323,"rect":[301,44,29,29]}
{"runs":325,"list":[[0,4,5,-99691,51,42,19]]}
{"flush":true}
{"remove":319}
{"remove":332}
{"insert":460,"into":15,"tag":"div","attrs":{"class":"ui-datepicker-header ui-widget-header ui-helper-clearfix ui-corner-all","display":"block"}}
{"insert":461,"into":460,"tag":"a","attrs":{"class":"ui-datepicker-prev ui-corner-all ui-state-hover ui-datepicker-prev-hover","data-handler":"prev","data-event":"click","title":"Prev","display":"block"}}
{"insert":462,"into":461,"tag":"span","attrs":{"class":"ui-icon ui-icon-circle-triangle-w","display":"block"}}
{"insert":463,"into":462,"text":"Prev"}
{"insert":464,"into":460,"tag":"a","attrs":{"class":"ui-datepicker-next ui-corner-all","data-handler":"next","data-event":"click","title":"Next","display":"block"}}
{"insert":465,"into":464,"tag":"span","attrs":{"class":"ui-icon ui-icon-circle-triangle-e","display":"block"}}
{"insert":466,"into":465,"text":"Next"}
{"insert":467,"into":460,"tag":"div","attrs":{"class":"ui-datepicker-title","display":"block"}}
{"insert":468,"into":467,"tag":"span","attrs":{"class":"ui-datepicker-month","display":"inline"}}
{"insert":469,"into":468,"text":"January"}
{"insert":470,"into":467,"text":" "}
{"insert":471,"into":467,"tag":"span","attrs":{"class":"ui-datepicker-year","display":"inline"}}
{"insert":472,"into":471,"text":"2027"}
{"insert":473,"into":15,"tag":"table","attrs":{"class":"ui-datepicker-calendar"}}
{"insert":474,"into":473,"tag":"thead"}
{"insert":475,"into":474,"tag":"tr"}
{"insert":476,"into":475,"tag":"th","attrs":{"scope":"col","class":"ui-datepicker-week-end"}}
{"insert":477,"into":476,"tag":"span","attrs":{"title":"Sunday","display":"inline"}}
{"insert":478,"into":477,"text":"Su"}
{"insert":479,"into":475,"tag":"th","attrs":{"scope":"col"}}
{"insert":480,"into":479,"tag":"span","attrs":{"title":"Monday","display":"inline"}}
{"insert":481,"into":480,"text":"Mo"}
{"insert":482,"into":475,"tag":"th","attrs":{"scope":"col"}}
{"insert":483,"into":482,"tag":"span","attrs":{"title":"Tuesday","display":"inline"}}
{"insert":484,"into":483,"text":"Tu"}
{"insert":485,"into":475,"tag":"th","attrs":{"scope":"col"}}
{"insert":486,"into":485,"tag":"span","attrs":{"title":"Wednesday","display":"inline"}}
{"insert":487,"into":486,"text":"We"}
{"insert":488,"into":475,"tag":"th","attrs":{"scope":"col"}}
{"insert":489,"into":488,"tag":"span","attrs":{"title":"Thursday","display":"inline"}}
{"insert":490,"into":489,"text":"Th"}
{"insert":491,"into":475,"tag":"th","attrs":{"scope":"col"}}
{"insert":492,"into":491,"tag":"span","attrs":{"title":"Friday","display":"inline"}}
{"insert":493,"into":492,"text":"Fr"}
{"insert":494,"into":475,"tag":"th","attrs":{"scope":"col","class":"ui-datepicker-week-end"}}
{"insert":495,"into":494,"tag":"span","attrs":{"title":"Saturday","display":"inline"}}
{"insert":496,"into":495,"text":"Sa"}
{"insert":497,"into":473,"tag":"tbody"}
{"insert":498,"into":497,"tag":"tr"}
{"insert":499,"into":498,"tag":"td","attrs":{"class":" ui-datepicker-week-end ui-datepicker-other-month ui-datepicker-unselectable ui-state-disabled"}}
{"insert":500,"into":499,"text":" "}
{"insert":501,"into":498,"tag":"td","attrs":{"class":" ui-datepicker-other-month ui-datepicker-unselectable ui-state-disabled"}}
{"insert":502,"into":501,"text":" "}
{"insert":503,"into":498,"tag":"td","attrs":{"class":" ui-datepicker-other-month ui-datepicker-unselectable ui-state-disabled"}}
{"insert":504,"into":503,"text":" "}
{"insert":505,"into":498,"tag":"td","attrs":{"class":" ui-datepicker-other-month ui-datepicker-unselectable ui-state-disabled"}}
{"insert":506,"into":505,"text":" "}
{"insert":507,"into":498,"tag":"td","attrs":{"class":" ui-datepicker-other-month ui-datepicker-unselectable ui-state-disabled"}}
{"insert":508,"into":507,"text":" "}
{"insert":509,"into":498,"tag":"td","attrs":{"class":" ","data-handler":"selectDay","data-event":"click","data-month":"0","data-year":"2027"}}
{"insert":510,"into":509,"tag":"a","attrs":{"class":"ui-state-default","href":"#","aria-current":"false","data-date":"1","display":"block"}}
{"insert":511,"into":510,"text":"1"}
{"insert":512,"into":498,"tag":"td","attrs":{"class":" ui-datepicker-week-end ","data-handler":"selectDay","data-event":"click","data-month":"0","data-year":"2027"}}
{"insert":513,"into":512,"tag":"a","attrs":{"class":"ui-state-default","href":"#","aria-current":"false","data-date":"2","display":"block"}}
{"insert":514,"into":513,"text":"2"}
{"insert":515,"into":497,"tag":"tr"}
{"insert":516,"into":515,"tag":"td","attrs":{"class":" ui-datepicker-week-end ","data-handler":"selectDay","data-event":"click","data-month":"0","data-year":"2027"}}
{"insert":517,"into":516,"tag":"a","attrs":{"class":"ui-state-default","href":"#","aria-current":"false","data-date":"3","display":"block"}}
{"insert":518,"into":517,"text":"3"}
{"insert":519,"into":515,"tag":"td","attrs":{"class":" ","data-handler":"selectDay","data-event":"click","data-month":"0","data-year":"2027"}}
{"insert":520,"into":519,"tag":"a","attrs":{"class":"ui-state-default","href":"#","aria-current":"false","data-date":"4","display":"block"}}
{"insert":521,"into":520,"text":"4"}
{"insert":522,"into":515,"tag":"td","attrs":{"class":" ","data-handler":"selectDay","data-event":"click","data-month":"0","data-year":"2027"}}
{"insert":523,"into":522,"tag":"a","attrs":{"class":"ui-state-default","href":"#","aria-current":"false","data-date":"5","display":"block"}}
{"insert":524,"into":523,"text":"5"}
{"insert":525,"into":515,"tag":"td","attrs":{"class":" ","data-handler":"selectDay","data-event":"click","data-month":"0","data-year":"2027"}}
{"insert":526,"into":525,"tag":"a","attrs":{"class":"ui-state-default","href":"#","aria-current":"false","data-date":"6","display":"block"}}
{"insert":527,"into":526,"text":"6"}
{"insert":528,"into":515,"tag":"td","attrs":{"class":" ","data-handler":"selectDay","data-event":"click","data-month":"0","data-year":"2027"}}
{"insert":529,"into":528,"tag":"a","attrs":{"class":"ui-state-default","href":"#","aria-current":"false","data-date":"7","display":"block"}}
{"insert":530,"into":529,"text":"7"}
{"insert":531,"into":515,"tag":"td","attrs":{"class":" ","data-handler":"selectDay","data-event":"click","data-month":"0","data-year":"2027"}}
{"insert":532,"into":531,"tag":"a","attrs":{"class":"ui-state-default","href":"#","aria-current":"false","data-date":"8","display":"block"}}
{"insert":533,"into":532,"text":"8"}
{"insert":534,"into":515,"tag":"td","attrs":{"class":" ui-datepicker-week-end ","data-handler":"selectDay","data-event":"click","data-month":"0","data-year":"2027"}}
{"insert":535,"into":534,"tag":"a","attrs":{"class":"ui-state-default","href":"#","aria-current":"false","data-date":"9","display":"block"}}
{"insert":536,"into":535,"text":"9"}
{"insert":537,"into":497,"tag":"tr"}
{"insert":538,"into":537,"tag":"td","attrs":{"class":" ui-datepicker-week-end ","data-handler":"selectDay","data-event":"click","data-month":"0","data-year":"2027"}}
{"insert":539,"into":538,"tag":"a","attrs":{"class":"ui-state-default","href":"#","aria-current":"false","data-date":"10","display":"block"}}
{"insert":540,"into":539,"text":"10"}
{"insert":541,"into":537,"tag":"td","attrs":{"class":" ","data-handler":"selectDay","data-event":"click","data-month":"0","data-year":"2027"}}
{"insert":542,"into":541,"tag":"a","attrs":{"class":"ui-state-default","href":"#","aria-current":"false","data-date":"11","display":"block"}}
{"insert":543,"into":542,"text":"11"}
{"insert":544,"into":537,"tag":"td","attrs":{"class":" ","data-handler":"selectDay","data-event":"click","data-month":"0","data-year":"2027"}}
{"insert":545,"into":544,"tag":"a","attrs":{"class":"ui-state-default","href":"#","aria-current":"false","data-date":"12","display":"block"}}
{"insert":546,"into":545,"text":"12"}
{"insert":547,"into":537,"tag":"td","attrs":{"class":" ","data-handler":"selectDay","data-event":"click","data-month":"0","data-year":"2027"}}
{"insert":548,"into":547,"tag":"a","attrs":{"class":"ui-state-default","href":"#","aria-current":"false","data-date":"13","display":"block"}}
{"insert":549,"into":548,"text":"13"}
{"insert":550,"into":537,"tag":"td","attrs":{"class":" ","data-handler":"selectDay","data-event":"click","data-month":"0","data-year":"2027"}}
{"insert":551,"into":550,"tag":"a","attrs":{"class":"ui-state-default","href":"#","aria-current":"false","data-date":"14","display":"block"}}
{"insert":552,"into":551,"text":"14"}
{"insert":553,"into":537,"tag":"td","attrs":{"class":" ","data-handler":"selectDay","data-event":"click","data-month":"0","data-year":"2027"}}
{"insert":554,"into":553,"tag":"a","attrs":{"class":"ui-state-default","href":"#","aria-current":"false","data-date":"15","display":"block"}}
{"insert":555,"into":554,"text":"15"}
{"insert":556,"into":537,"tag":"td","attrs":{"class":" ui-datepicker-week-end ","data-handler":"selectDay","data-event":"click","data-month":"0","data-year":"2027"}}
{"insert":557,"into":556,"tag":"a","attrs":{"class":"ui-state-default","href":"#","aria-current":"false","data-date":"16","display":"block"}}
{"insert":558,"into":557,"text":"16"}
{"insert":559,"into":497,"tag":"tr"}
{"insert":560,"into":559,"tag":"td","attrs":{"class":" ui-datepicker-week-end ","data-handler":"selectDay","data-event":"click","data-month":"0","data-year":"2027"}}
{"insert":561,"into":560,"tag":"a","attrs":{"class":"ui-state-default","href":"#","aria-current":"false","data-date":"17","display":"block"}}
{"insert":562,"into":561,"text":"17"}
{"insert":563,"into":559,"tag":"td","attrs":{"class":" ","data-handler":"selectDay","data-event":"click","data-month":"0","data-year":"2027"}}
{"insert":564,"into":563,"tag":"a","attrs":{"class":"ui-state-default","href":"#","aria-current":"false","data-date":"18","display":"block"}}
{"insert":565,"into":564,"text":"18"}
{"insert":566,"into":559,"tag":"td","attrs":{"class":" ","data-handler":"selectDay","data-event":"click","data-month":"0","data-year":"2027"}}
{"insert":567,"into":566,"tag":"a","attrs":{"class":"ui-state-default","href":"#","aria-current":"false","data-date":"19","display":"block"}}
{"insert":568,"into":567,"text":"19"}
{"insert":569,"into":559,"tag":"td","attrs":{"class":" ","data-handler":"selectDay","data-event":"click","data-month":"0","data-year":"2027"}}
{"insert":570,"into":569,"tag":"a","attrs":{"class":"ui-state-default","href":"#","aria-current":"false","data-date":"20","display":"block"}}
{"insert":571,"into":570,"text":"20"}
{"insert":572,"into":559,"tag":"td","attrs":{"class":" ","data-handler":"selectDay","data-event":"click","data-month":"0","data-year":"2027"}}
{"insert":573,"into":572,"tag":"a","attrs":{"class":"ui-state-default","href":"#","aria-current":"false","data-date":"21","display":"block"}}
{"insert":574,"into":573,"text":"21"}
{"insert":575,"into":559,"tag":"td","attrs":{"class":" ","data-handler":"selectDay","data-event":"click","data-month":"0","data-year":"2027"}}
{"insert":576,"into":575,"tag":"a","attrs":{"class":"ui-state-default","href":"#","aria-current":"false","data-date":"22","display":"block"}}
{"insert":577,"into":576,"text":"22"}
{"insert":578,"into":559,"tag":"td","attrs":{"class":" ui-datepicker-week-end ","data-handler":"selectDay","data-event":"click","data-month":"0","data-year":"2027"}}
{"insert":579,"into":578,"tag":"a","attrs":{"class":"ui-state-default","href":"#","aria-current":"false","data-date":"23","display":"block"}}
{"insert":580,"into":579,"text":"23"}
{"insert":581,"into":497,"tag":"tr"}
{"insert":582,"into":581,"tag":"td","attrs":{"class":" ui-datepicker-week-end ","data-handler":"selectDay","data-event":"click","data-month":"0","data-year":"2027"}}
{"insert":583,"into":582,"tag":"a","attrs":{"class":"ui-state-default","href":"#","aria-current":"false","data-date":"24","display":"block"}}
{"insert":584,"into":583,"text":"24"}
{"insert":585,"into":581,"tag":"td","attrs":{"class":" ","data-handler":"selectDay","data-event":"click","data-month":"0","data-year":"2027"}}
{"insert":586,"into":585,"tag":"a","attrs":{"class":"ui-state-default","href":"#","aria-current":"false","data-date":"25","display":"block"}}
{"insert":587,"into":586,"text":"25"}
{"insert":588,"into":581,"tag":"td","attrs":{"class":" ","data-handler":"selectDay","data-event":"click","data-month":"0","data-year":"2027"}}
{"insert":589,"into":588,"tag":"a","attrs":{"class":"ui-state-default","href":"#","aria-current":"false","data-date":"26","display":"block"}}
{"insert":590,"into":589,"text":"26"}
{"insert":591,"into":581,"tag":"td","attrs":{"class":" ","data-handler":"selectDay","data-event":"click","data-month":"0","data-year":"2027"}}
{"insert":592,"into":591,"tag":"a","attrs":{"class":"ui-state-default","href":"#","aria-current":"false","data-date":"27","display":"block"}}
{"insert":593,"into":592,"text":"27"}
{"insert":594,"into":581,"tag":"td","attrs":{"class":" ","data-handler":"selectDay","data-event":"click","data-month":"0","data-year":"2027"}}
{"insert":595,"into":594,"tag":"a","attrs":{"class":"ui-state-default","href":"#","aria-current":"false","data-date":"28","display":"block"}}
{"insert":596,"into":595,"text":"28"}
{"insert":597,"into":581,"tag":"td","attrs":{"class":" ","data-handler":"selectDay","data-event":"click","data-month":"0","data-year":"2027"}}
{"insert":598,"into":597,"tag":"a","attrs":{"class":"ui-state-default","href":"#","aria-current":"false","data-date":"29","display":"block"}}
{"insert":599,"into":598,"text":"29"}
{"insert":600,"into":581,"tag":"td","attrs":{"class":" ui-datepicker-week-end ","data-handler":"selectDay","data-event":"click","data-month":"0","data-year":"2027"}}
{"insert":601,"into":600,"tag":"a","attrs":{"class":"ui-state-default","href":"#","aria-current":"false","data-date":"30","display":"block"}}
{"insert":602,"into":601,"text":"30"}
{"insert":603,"into":497,"tag":"tr"}
{"insert":604,"into":603,"tag":"td","attrs":{"class":" ui-datepicker-week-end ","data-handler":"selectDay","data-event":"click","data-month":"0","data-year":"2027"}}
{"insert":605,"into":604,"tag":"a","attrs":{"class":"ui-state-default","href":"#","aria-current":"false","data-date":"31","display":"block"}}
{"insert":606,"into":605,"text":"31"}
{"insert":607,"into":603,"tag":"td","attrs":{"class":" ui-datepicker-other-month ui-datepicker-unselectable ui-state-disabled"}}
{"insert":608,"into":607,"text":" "}
{"insert":609,"into":603,"tag":"td","attrs":{"class":" ui-datepicker-other-month ui-datepicker-unselectable ui-state-disabled"}}
{"insert":610,"into":609,"text":" "}
{"insert":611,"into":603,"tag":"td","attrs":{"class":" ui-datepicker-other-month ui-datepicker-unselectable ui-state-disabled"}}
{"insert":612,"into":611,"text":" "}
{"insert":613,"into":603,"tag":"td","attrs":{"class":" ui-datepicker-other-month ui-datepicker-unselectable ui-state-disabled"}}
{"insert":614,"into":613,"text":" "}
{"insert":615,"into":603,"tag":"td","attrs":{"class":" ui-datepicker-other-month ui-datepicker-unselectable ui-state-disabled"}}
{"insert":616,"into":615,"text":" "}
{"insert":617,"into":603,"tag":"td","attrs":{"class":" ui-datepicker-week-end ui-datepicker-other-month ui-datepicker-unselectable ui-state-disabled"}}
{"insert":618,"into":617,"text":" "}
{"frame":15,"rect":[57,37,280,239]}
{"frame":460,"rect":[61,41,272,37]}
{"frame":461,"rect":[63,43,31,31]}
{"frame":462,"rect":[70,51,16,16]}
{"runs":463,"list":[[0,4,4,-99929,51,35,19]]}
{"frame":464,"rect":[301,44,29,29]}
{"frame":465,"rect":[308,51,16,16]}
{"runs":466,"list":[[0,4,5,-99691,51,42,19]]}
{"frame":467,"rect":[99,45,196,29]}
{"frame":468,"rect":[138,49,68,19]}
{"runs":469,"list":[[0,7,6,138,49,68,19]]}
{"runs":470,"list":[[0,1,6,206,49,6,19]]}
{"frame":471,"rect":[212,49,44,19]}
{"runs":472,"list":[[0,4,6,212,49,44,19]]}
{"frame":473,"rect":[61,78,272,191]}
{"frame":474,"rect":[61,78,272,37]}
{"frame":475,"rect":[61,78,272,37]}
{"frame":476,"rect":[61,78,38,37]}
{"frame":477,"rect":[70,88,20,16]}
{"runs":478,"list":[[0,2,7,70,88,20,16]]}
{"frame":479,"rect":[99,78,43,37]}
{"frame":480,"rect":[108,88,24,16]}
{"runs":481,"list":[[0,2,8,108,88,24,16]]}
{"frame":482,"rect":[142,78,36,37]}
{"frame":483,"rect":[151,88,18,16]}
{"runs":484,"list":[[0,2,9,151,88,18,16]]}
{"frame":485,"rect":[178,78,44,37]}
{"frame":486,"rect":[187,88,25,16]}
{"runs":487,"list":[[0,2,10,187,88,25,16]]}
{"frame":488,"rect":[222,78,37,37]}
{"frame":489,"rect":[230,88,21,16]}
{"runs":490,"list":[[0,2,11,230,88,21,16]]}
{"frame":491,"rect":[259,78,37,37]}
{"frame":492,"rect":[269,88,16,16]}
{"runs":493,"list":[[0,2,12,269,88,16,16]]}
{"frame":494,"rect":[296,78,37,37]}
{"frame":495,"rect":[304,88,20,16]}
{"runs":496,"list":[[0,2,13,304,88,20,16]]}
{"frame":497,"rect":[61,115,272,154]}
{"frame":498,"rect":[61,115,272,25]}
{"frame":499,"rect":[61,115,38,25]}
{"runs":500,"list":[[0,1,14,62,119,4,16]]}
{"frame":501,"rect":[99,115,43,25]}
{"runs":502,"list":[[0,1,15,100,119,4,16]]}
{"frame":503,"rect":[142,115,36,25]}
{"runs":504,"list":[[0,1,16,143,119,4,16]]}
{"frame":505,"rect":[178,115,44,25]}
{"runs":506,"list":[[0,1,17,179,119,5,16]]}
{"frame":507,"rect":[222,115,37,25]}
{"runs":508,"list":[[0,1,18,223,119,4,16]]}
{"frame":509,"rect":[259,115,37,25]}
{"frame":510,"rect":[260,116,35,23]}
{"runs":511,"list":[[0,1,19,282,119,9,16]]}
{"frame":512,"rect":[296,115,37,25]}
{"frame":513,"rect":[297,116,35,23]}
{"runs":514,"list":[[0,1,20,319,119,9,16]]}
{"frame":515,"rect":[61,140,272,26]}
{"frame":516,"rect":[61,140,38,26]}
{"frame":517,"rect":[62,141,36,24]}
{"runs":518,"list":[[0,1,21,85,145,9,16]]}
{"frame":519,"rect":[99,140,43,26]}
{"frame":520,"rect":[100,141,41,24]}
{"runs":521,"list":[[0,1,22,128,145,9,16]]}
{"frame":522,"rect":[142,140,36,26]}
{"frame":523,"rect":[143,141,34,24]}
{"runs":524,"list":[[0,1,23,164,145,9,16]]}
{"frame":525,"rect":[178,140,44,26]}
{"frame":526,"rect":[179,141,42,24]}
{"runs":527,"list":[[0,1,24,208,145,9,16]]}
{"frame":528,"rect":[222,140,37,26]}
{"frame":529,"rect":[223,141,35,24]}
{"runs":530,"list":[[0,1,25,245,145,9,16]]}
{"frame":531,"rect":[259,140,37,26]}
{"frame":532,"rect":[260,141,35,24]}
{"runs":533,"list":[[0,1,26,282,145,9,16]]}
{"frame":534,"rect":[296,140,37,26]}
{"frame":535,"rect":[297,141,35,24]}
{"runs":536,"list":[[0,1,27,319,145,9,16]]}
{"frame":537,"rect":[61,166,272,26]}
{"frame":538,"rect":[61,166,38,26]}
{"frame":539,"rect":[62,167,36,24]}
{"runs":540,"list":[[0,2,28,76,171,18,16]]}
{"frame":541,"rect":[99,166,43,26]}
{"frame":542,"rect":[100,167,41,24]}
{"runs":543,"list":[[0,2,29,118,171,19,16]]}
{"frame":544,"rect":[142,166,36,26]}
{"frame":545,"rect":[143,167,34,24]}
{"runs":546,"list":[[0,2,30,155,171,18,16]]}
{"frame":547,"rect":[178,166,44,26]}
{"frame":548,"rect":[179,167,42,24]}
{"runs":549,"list":[[0,2,31,199,171,18,16]]}
{"frame":550,"rect":[222,166,37,26]}
{"frame":551,"rect":[223,167,35,24]}
{"runs":552,"list":[[0,2,32,236,171,18,16]]}
{"frame":553,"rect":[259,166,37,26]}
{"frame":554,"rect":[260,167,35,24]}
{"runs":555,"list":[[0,2,33,272,171,19,16]]}
{"frame":556,"rect":[296,166,37,26]}
{"frame":557,"rect":[297,167,35,24]}
{"runs":558,"list":[[0,2,34,310,171,18,16]]}
{"frame":559,"rect":[61,192,272,26]}
{"frame":560,"rect":[61,192,38,26]}
{"frame":561,"rect":[62,193,36,24]}
{"runs":562,"list":[[0,2,35,76,197,18,16]]}
{"frame":563,"rect":[99,192,43,26]}
{"frame":564,"rect":[100,193,41,24]}
{"runs":565,"list":[[0,2,36,118,197,19,16]]}
{"frame":566,"rect":[142,192,36,26]}
{"frame":567,"rect":[143,193,34,24]}
{"runs":568,"list":[[0,2,37,155,197,18,16]]}
{"frame":569,"rect":[178,192,44,26]}
{"frame":570,"rect":[179,193,42,24]}
{"runs":571,"list":[[0,2,38,199,197,18,16]]}
{"frame":572,"rect":[222,192,37,26]}
{"frame":573,"rect":[223,193,35,24]}
{"runs":574,"list":[[0,2,39,236,197,18,16]]}
{"frame":575,"rect":[259,192,37,26]}
{"frame":576,"rect":[260,193,35,24]}
{"runs":577,"list":[[0,2,40,272,197,19,16]]}
{"frame":578,"rect":[296,192,37,26]}
{"frame":579,"rect":[297,193,35,24]}
{"runs":580,"list":[[0,2,41,310,197,18,16]]}
{"frame":581,"rect":[61,218,272,25]}
{"frame":582,"rect":[61,218,38,25]}
{"frame":583,"rect":[62,219,36,23]}
{"runs":584,"list":[[0,2,42,76,222,18,16]]}
{"frame":585,"rect":[99,218,43,25]}
{"frame":586,"rect":[100,219,41,23]}
{"runs":587,"list":[[0,2,43,118,222,19,16]]}
{"frame":588,"rect":[142,218,36,25]}
{"frame":589,"rect":[143,219,34,23]}
{"runs":590,"list":[[0,2,44,155,222,18,16]]}
{"frame":591,"rect":[178,218,44,25]}
{"frame":592,"rect":[179,219,42,23]}
{"runs":593,"list":[[0,2,45,199,222,18,16]]}
{"frame":594,"rect":[222,218,37,25]}
{"frame":595,"rect":[223,219,35,23]}
{"runs":596,"list":[[0,2,46,236,222,18,16]]}
{"frame":597,"rect":[259,218,37,25]}
{"frame":598,"rect":[260,219,35,23]}
{"runs":599,"list":[[0,2,47,272,222,19,16]]}
{"frame":600,"rect":[296,218,37,25]}
{"frame":601,"rect":[297,219,35,23]}
{"runs":602,"list":[[0,2,48,310,222,18,16]]}
{"frame":603,"rect":[61,243,272,26]}
{"frame":604,"rect":[61,243,38,26]}
{"frame":605,"rect":[62,244,36,24]}
{"runs":606,"list":[[0,2,49,76,248,18,16]]}
{"frame":607,"rect":[99,243,43,26]}
{"runs":608,"list":[[0,1,50,100,248,4,16]]}
{"frame":609,"rect":[142,243,36,26]}
{"runs":610,"list":[[0,1,51,143,248,4,16]]}
{"frame":611,"rect":[178,243,44,26]}
{"runs":612,"list":[[0,1,52,179,248,5,16]]}
{"frame":613,"rect":[222,243,37,26]}
{"runs":614,"list":[[0,1,53,223,248,4,16]]}
{"frame":615,"rect":[259,243,37,26]}
{"runs":616,"list":[[0,1,54,260,248,5,16]]}
{"frame":617,"rect":[296,243,37,26]}
{"runs":618,"list":[[0,1,55,297,248,4,16]]}
{"flush":true}
{"until":13}
{"await":13}
{"again":{"q":"focus"}}
{"again":{"q":"role","id":7}}
{"again":{"q":"name","id":7}}
{"again":{"q":"description","id":7}}
{"again":{"q":"states","id":7}}
{"again":{"q":"value","id":7}}
{"notices":true}
