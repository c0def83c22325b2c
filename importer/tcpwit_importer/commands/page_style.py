"""The style sheet of a report's page: on a narrow screen, a connection's row becomes a list of its cells."""

STYLE = """:root { color-scheme: light dark; --line: #8888; --bad: #d33; --good: #383; }
body { font: 16px/1.4 system-ui, sans-serif; margin: 1rem auto; max-width: 75rem; padding: 0 .8rem;
       overflow-wrap: break-word; }
h1 { font-size: 1.4rem; } h2 { font-size: 1.15rem; margin-top: 2.5rem; } h3 { font-size: 1rem; }
table { border-collapse: collapse; width: 100%; }
th, td { text-align: left; vertical-align: top; padding: .3rem .5rem; }
.connections td, .connections th, .levels td, .levels th, .figures td, .figures th {
       border-bottom: 1px solid var(--line); }
.connections td:nth-child(5), .levels td:nth-child(2) { font-weight: bold; white-space: nowrap; }
.connections td:nth-child(3) { white-space: nowrap; }
.connections td:nth-child(5) a { color: inherit; }
.no td:nth-child(5), .levels .no td:nth-child(2) { color: var(--bad); }
.yes td:nth-child(5), .levels .yes td:nth-child(2) { color: var(--good); }
.levels th, .levels td:nth-child(2) { width: 1%; }
.figures { max-width: 48rem; font-size: .9rem; font-variant-numeric: tabular-nums; }
.levels td:nth-child(3), .figures td, h1, h2, h3, p, code { overflow-wrap: anywhere; }
code { font-size: .9em; }
.ladder { max-width: 48rem; font-size: .9rem; font-variant-numeric: tabular-nums; }
.ladder td:nth-child(1), .ladder td:nth-child(2), .ladder th:nth-child(-n+2) { width: 1%; white-space: nowrap; }
.ends { overflow-wrap: anywhere; }
.ends span { display: inline-block; max-width: 48%; }
.ends span:last-child { float: right; text-align: right; }
.lane { border-left: 2px solid var(--line); border-right: 2px solid var(--line); text-align: center;
        overflow-wrap: anywhere; }
.left, .right { border-bottom: 2px solid; position: relative; margin: .2rem -.3rem; }
.left::after, .right::after { content: ""; position: absolute; bottom: -5px; border: 4px solid transparent; }
.left::after { left: 0; border-right: 8px solid; border-left: 0; }
.right::after { right: 0; border-left: 8px solid; border-right: 0; }
.marked { background: #d332; } .note { color: var(--bad); margin: .3rem 0 0; text-align: left; }
.gap td { text-align: center; color: #888; }
@media (max-width: 40rem) {
  .connections thead { display: none; }
  .connections tr { display: block; border-bottom: 2px solid var(--line); padding: .5rem 0; }
  .connections td { display: block; border: 0; padding: .1rem 0; overflow-wrap: anywhere; }
  .connections td:empty { display: none; }
  .connections td::before { content: attr(data-name) ": "; color: #888; font-weight: normal; }
  .ladder td, .ladder th { padding: .25rem; }
}
"""
