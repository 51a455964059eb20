"""The style, the colours and the script of the report's page. All stand in the page itself."""

from __future__ import annotations

import base64
import hashlib
from typing import Dict

LIGHT: Dict[str, str] = {
    "paper": "#ffffff", "panel": "#f1f4f7", "edge": "#c2cad3", "ink": "#1a2027", "soft": "#4d5763",
    "link": "#0a4fa3", "done": "#136a2b", "failed": "#a3122b", "doubt": "#7a4a00",
    "pending": "#0a4fa3", "untouched": "#4d5763", "open": "#4d5763"}
DARK: Dict[str, str] = {
    "paper": "#11161c", "panel": "#1c242d", "edge": "#46525f", "ink": "#e8edf2", "soft": "#a9b4c0",
    "link": "#8cc4ff", "done": "#62d37e", "failed": "#ff9a94", "doubt": "#f0bd4e",
    "pending": "#8cc4ff", "untouched": "#a9b4c0", "open": "#a9b4c0"}
RULES = """
*{box-sizing:border-box}
body{margin:0 auto;max-width:75rem;padding:1rem;background:var(--paper);color:var(--ink);
font:1rem/1.5 system-ui,sans-serif;overflow-wrap:anywhere}
h1{font-size:1.5rem;line-height:1.2;margin:.5rem 0}
h2{font-size:1.2rem;margin:2rem 0 .5rem;border-bottom:1px solid var(--edge)}
a{color:var(--link)}
a:focus-visible,button:focus-visible,input:focus-visible,code:focus-visible,summary:focus-visible{
outline:3px solid var(--link);outline-offset:2px}
.soft{color:var(--soft)}
nav ul{display:flex;flex-wrap:wrap;gap:.25rem 1rem;padding:0;margin:.5rem 0;list-style:none}
.counts{display:grid;grid-template-columns:repeat(auto-fit,minmax(7rem,1fr));gap:.5rem;
padding:0;margin:1rem 0}
.counts div,article{border:1px solid var(--edge);border-radius:.3rem;padding:.5rem .75rem}
.counts div{background:var(--panel)}
.counts dt{font-size:.85rem}
.counts dd{margin:0;font-size:1.5rem;font-weight:600;font-variant-numeric:tabular-nums}
.done{color:var(--done)}.failed{color:var(--failed)}.doubt{color:var(--doubt)}
.pending{color:var(--pending)}.untouched{color:var(--untouched)}.open{color:var(--open)}
article{border-left:.4rem solid;margin:.75rem 0}
article>*{color:var(--ink)}article h3{font-size:1rem;margin:0}article p{margin:.25rem 0}
.text{unicode-bidi:isolate;white-space:pre-wrap}
pre,code{font-family:ui-monospace,"DejaVu Sans Mono",monospace;font-size:.85rem}
pre{background:var(--panel);margin:.25rem 0;padding:.4rem .6rem;white-space:pre-wrap;
border-radius:.3rem}
p.label{margin:.5rem 0 0;font-size:.85rem}
code.command{display:block;margin:.1rem 0 .25rem;padding:.4rem .6rem;border:1px solid var(--soft);
white-space:pre-wrap;border-radius:.3rem;user-select:all;-webkit-user-select:all;
max-height:12rem;overflow-y:auto}
details{font-weight:400}
table{border-collapse:collapse;width:100%;font-size:.9rem;font-variant-numeric:tabular-nums}
th,td{text-align:left;vertical-align:top;padding:.25rem .5rem;border-bottom:1px solid var(--edge)}
th{background:var(--panel);overflow-wrap:normal}
.sorted td:not([data-name="Text"]) .text{white-space:nowrap}
.sorted td[data-name="Text"]{width:100%}
th button{all:unset;cursor:pointer;text-decoration:underline;font-weight:600}
.lane{display:grid;grid-template-columns:9rem 1fr;gap:.5rem;align-items:center;margin:.2rem 0;
font-size:.85rem}
.bars{position:relative;height:1.4rem;background:var(--panel);border:1px solid var(--edge)}
.bars i,.key i,.bar{display:block;print-color-adjust:exact;-webkit-print-color-adjust:exact}
.bars i,.key i{height:100%;background-color:var(--paper)}
.bars>i{position:absolute;top:0;min-width:2px;box-shadow:inset -1px 0 var(--paper)}
.bars.high{height:3rem}
.bars>i>i{height:auto}
.key i{display:inline-block;width:2rem;height:1rem;vertical-align:text-bottom;
border:1px solid var(--edge)}
.key{display:flex;flex-wrap:wrap;gap:.25rem 1rem;padding:0;margin:.5rem 0;list-style:none;
font-size:.85rem}
i.b-done{background-color:var(--done)}
i.b-failed,i.b-doubt,i.b-pending,i.b-untouched{z-index:1}
i.b-failed{background-image:
repeating-linear-gradient(45deg,var(--failed) 0 4px,var(--paper) 4px 6px)}
i.b-doubt{background-image:repeating-linear-gradient(0deg,var(--doubt) 0 3px,transparent 3px 6px),
repeating-linear-gradient(90deg,var(--doubt) 0 3px,var(--paper) 3px 6px)}
i.b-pending{background-image:radial-gradient(var(--pending) 35%,transparent 40%);
background-size:6px 6px}
i.b-untouched{background-image:
repeating-linear-gradient(0deg,var(--untouched) 0 2px,var(--paper) 2px 5px)}
i.b-open{border:1px dashed var(--open)}
.bars b{position:absolute;z-index:2;top:-.2rem;bottom:-.2rem;border-left:2px solid;
box-shadow:0 0 0 1px var(--paper)}
.bars .m-machine{border-left:5px double}.bars .m-runner{border-left-style:dashed}
.bars .m-worker{border-left-style:dotted}.bars .sign{position:absolute;top:0;left:-.8rem}
.sign{display:inline-block;width:1rem;border:1px solid;border-radius:.2rem;text-align:center;
background:var(--paper);font:700 .65rem/1 system-ui,sans-serif}
.scale{display:flex;justify-content:space-between;gap:1rem;margin:.2rem 0 0 9.5rem;font-size:.8rem}
.bar{height:.8rem;margin:.3rem 0;background:var(--link)}
td.wide{width:50%}
input{font:inherit;color:inherit;background:var(--paper);border:1px solid var(--soft);
padding:.25rem .5rem;max-width:100%}
@media(max-width:40rem){
body{padding:.5rem}
.sorted,.sorted tbody,.sorted tr,.sorted td{display:block}
.sorted thead{display:none}
.sorted tr{border-bottom:2px solid var(--edge);padding:.25rem 0}
.sorted td{border:0;padding:.1rem 0;width:auto}
.sorted td::before{content:attr(data-name) ": ";color:var(--soft)}
.lane{grid-template-columns:1fr;gap:0}
.scale{margin-left:0}
}
@media print{
body{max-width:none;padding:0}
nav,.tools{display:none}
code.command{max-height:none}
article{break-inside:avoid}
}
"""


def rules_of(colours: Dict[str, str]) -> str:
    """Returns the colours as the custom properties of CSS."""
    return "".join(f"--{name}:{colour};" for name, colour in colours.items())


STYLE = (f":root{{color-scheme:light dark;{rules_of(LIGHT)}}}"
         f"@media(prefers-color-scheme:dark){{:root{{{rules_of(DARK)}}}}}"
         f"@media print{{:root{{{rules_of(LIGHT)}}}}}" + RULES.replace("\n", ""))

# Sorts a table by the column whose head is pressed, and hides what doesn't hold the words that are
# looked for. Without it the page has all that it has with it.
SCRIPT = """
'use strict';
(function(){
function value(row,k){var it=row.cells[k],key=it.getAttribute('data-key');
return key===null?it.textContent:Number(key)}
document.querySelectorAll('table.sorted').forEach(function(table){
table.querySelectorAll('th').forEach(function(head,k){
var button=document.createElement('button');button.type='button';
button.textContent=head.textContent;head.textContent='';head.appendChild(button);
var up=false;
button.addEventListener('click',function(){
up=!up;
table.querySelectorAll('th').forEach(function(it){it.removeAttribute('aria-sort')});
head.setAttribute('aria-sort',up?'ascending':'descending');
var body=table.tBodies[0],rows=Array.prototype.slice.call(body.rows);
rows.sort(function(a,b){var x=value(a,k),y=value(b,k);
return (x<y?-1:x>y?1:0)*(up?1:-1)});
rows.forEach(function(row){body.appendChild(row)})})})});
var place=document.getElementById('tools');
if(place){var label=document.createElement('label');
label.textContent='Show only lines with this text: ';
var field=document.createElement('input');field.type='search';
label.appendChild(field);place.appendChild(label);
field.addEventListener('input',function(){
var word=field.value.toLowerCase();
document.querySelectorAll('article,table.sorted tbody tr').forEach(function(it){
it.hidden=word!==''&&it.textContent.toLowerCase().indexOf(word)<0})})}
})();
"""


def policy() -> str:
    """Returns the page's content policy: nothing is loaded, and no other script runs."""
    digest = base64.b64encode(hashlib.sha256(SCRIPT.encode()).digest()).decode()
    return f"default-src 'none'; style-src 'unsafe-inline'; script-src 'sha256-{digest}'"
