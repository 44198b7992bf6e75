//! The look of the page, on a screen and on paper.

/// The style sheet.
pub(super) const STYLE: &str = "\
:root{color-scheme:light;--ink:#14181c;--soft:#4a535b;--rule:#c9d0d6;--paper:#fff;--way:#174a7c;--way-back:#eef4fb;--no:#9b1c0b;--no-back:#fdf1ee;--yes:#0c5c34;--yes-back:#eef8f2}
*{box-sizing:border-box}
body{margin:0;background:#f3f5f6;color:var(--ink);font:1rem/1.5 \"Segoe UI\",\"Noto Sans\",\"DejaVu Sans\",Arial,sans-serif}
main{max-width:82rem;margin:0 auto;padding:1.5rem clamp(.75rem,3vw,2.5rem) 3rem}
h1,h2{line-height:1.2;margin:0;text-wrap:balance}
h1{font-size:clamp(2rem,6vw,3.25rem);letter-spacing:-.01em}
h2{font-size:1.2rem}
p{margin:.4rem 0}
a{color:var(--way)}
.answer{border-left:.6rem solid;border-radius:.3rem;padding:1.25rem 1.5rem;background:var(--paper)}
.answer p{font-size:1.15rem;max-width:46rem}
.answer .sign{display:inline-block;min-width:1.1em}
.answer.no{border-color:var(--no);background:var(--no-back)}
.answer.no h1{color:var(--no)}
.answer.yes{border-color:var(--yes);background:var(--yes-back)}
.answer.yes h1{color:var(--yes)}
.answer.add{border-color:var(--way);background:var(--way-back)}
.answer.add h1{color:var(--way)}
.card{background:var(--paper);border:1px solid var(--rule);border-radius:.3rem;padding:1rem 1.25rem;margin-top:1.25rem;min-width:0}
.why{display:grid;grid-template-columns:max-content minmax(0,1fr);gap:.7rem 1.5rem;align-items:baseline;margin:.8rem 0 0}
.why dt{color:var(--soft)}
.why dd{margin:0;min-width:0;font-size:1.1rem;font-weight:600;overflow-wrap:anywhere}
.why dd small{display:block;font-size:.9rem;font-weight:400;color:var(--soft)}
.two{display:grid;grid-template-columns:repeat(auto-fit,minmax(min(100%,24rem),1fr));gap:0 1.25rem;align-items:start}
.file{color:var(--soft);font-weight:400;overflow-wrap:anywhere}
.size{color:var(--soft);font-size:.95rem;margin:.15rem 0 .6rem}
ul{list-style:none;margin:0;padding:0}
ul ul{margin-left:.55rem;padding-left:.9rem;border-left:1px solid var(--rule)}
.tight ul ul{margin-left:.3rem;padding-left:.4rem}
.tighter ul ul{margin-left:.15rem;padding-left:.2rem}
.e{display:flex;align-items:baseline;gap:0 .55rem;padding:.15rem .4rem;border-radius:.2rem}
.n{flex:none;min-width:var(--n);text-align:right;color:var(--soft);font-size:.85rem;font-variant-numeric:tabular-nums}
.w{flex:1;min-width:0;overflow-wrap:anywhere}
.w b{font-weight:600}
.c{color:var(--soft);font-size:.85rem;margin-left:.35rem;white-space:nowrap}
.c.t{display:inline-block;white-space:normal}
summary{cursor:pointer;border-radius:.2rem;list-style:none}
summary::-webkit-details-marker{display:none}
summary .e::before{content:\"\\25B8\";flex:none;width:.8rem;margin-right:-.4rem;color:var(--soft)}
details[open]>summary .e::before{content:\"\\25BE\"}
li>.e::before{content:\"\";flex:none;width:.8rem;margin-right:-.4rem}
summary:focus-visible{outline:3px solid var(--way)}
.way{background:var(--way-back);box-shadow:inset .22rem 0 var(--way)}
.says{background:var(--way-back);outline:2px dashed var(--way);outline-offset:-1px;margin:.15rem 0}
.fails{background:var(--no-back);outline:3px solid var(--no);outline-offset:-1px;margin:.2rem 0}
.fails mark{background:none;color:inherit;font-weight:700}
.gone{color:var(--soft)}
.added{background:var(--yes-back);box-shadow:inset .22rem 0 var(--yes)}
.too{background:var(--no-back);outline:1px solid var(--no);outline-offset:-1px;margin:.15rem 0}
table{border-collapse:collapse;width:100%;margin-top:.6rem}
th{text-align:left;color:var(--soft);font-weight:400}
th,td{padding:.3rem .8rem .3rem 0;border-bottom:1px solid var(--rule);vertical-align:baseline;overflow-wrap:anywhere}
td small{display:block;color:var(--soft);white-space:nowrap}
tr.no td:first-child{color:var(--no)}
tr.yes td:first-child{color:var(--yes)}
.index td:first-child{width:1.5rem;font-weight:700}
.index td:nth-child(2){min-width:8rem}
td:first-child{font-variant-numeric:tabular-nums}
.flag{display:inline-block;max-width:100%;overflow:hidden;margin-left:.35rem;font-size:.85rem;font-weight:700;padding:0 .5rem;border-radius:.2rem;background:var(--no);color:#fff}
.flag.here{background:var(--way)}
.run>summary{color:var(--soft);padding:.15rem .4rem}
.run>summary::before{content:\"\\25B8\\00A0\"}
.run[open]>summary::before{content:\"\\25BE\\00A0\"}
figure{margin:.8rem 0 0}
.draw{overflow-x:auto}
.draw svg{display:block;max-width:none}
figcaption{color:var(--soft);font-size:.95rem;margin-top:.5rem}
pre{white-space:pre-wrap;overflow-wrap:anywhere;background:#f3f5f6;padding:.8rem 1rem;border-radius:.2rem;font-size:.95rem}
footer{color:var(--soft);font-size:.9rem;margin-top:1.5rem;max-width:60rem}
.given{overflow-wrap:anywhere}
@media (max-width:36rem){.why{grid-template-columns:minmax(0,1fr);gap:.1rem}.why dd{margin-bottom:.7rem}.card{padding:.8rem .8rem}}
@media print{
@page{margin:14mm}
html{font-size:9.5pt}
body{background:#fff;-webkit-print-color-adjust:exact;print-color-adjust:exact}
main{padding:0;max-width:none}
.card{border:0;border-top:1px solid var(--rule);border-radius:0;padding:.6rem .3rem 0 0}
.two{display:flex}
.two>section{flex:1 1 0;padding-right:.3rem}
.two.short,.two.short+section{break-inside:avoid}
.e,.answer,figure svg,.why dd{break-inside:avoid}
.draw{overflow:visible}
.draw svg{max-width:100%;height:auto;zoom:.75}
h2{break-after:avoid}
details:not([open])>summary .w::after,.run:not([open])>summary::after{content:\" \\00B7 folded\";color:var(--soft);font-size:.85rem}
.draw svg{max-height:225mm;width:auto}
bdi.long{white-space:normal;max-width:none}
}
bdi.long{display:inline-block;max-width:min(100%,40ch);overflow:hidden;text-overflow:ellipsis;white-space:nowrap;vertical-align:bottom}
";

/// What the form of a field sheet has besides: a box before each line, and room behind it.
pub(super) const FORM: &str = "\
.blanks{display:flex;flex-wrap:wrap;gap:.9rem 1.5rem;margin-top:1rem;max-width:none!important}
.blanks span{flex:1 1 12rem;display:flex;align-items:baseline;gap:.5rem}
.blanks span::after{content:\"\";flex:1;border-bottom:1px solid var(--ink)}
.form .e{padding:.35rem .4rem}
.form li>.e::before,.form details>summary .e::before{content:\"\";flex:none;width:1.05rem;height:1.05rem;margin-right:.1rem;border:1.5px solid var(--ink);border-radius:.15rem;align-self:center}
.form li>.e::after{content:\"\";flex:none;width:clamp(3.5rem,16vw,9rem);border-bottom:1px solid var(--soft);align-self:end}
.form summary .e{font-weight:600}
.form .k{display:none}
.blank{border-bottom:1px solid var(--soft);height:2rem;margin:0}
@media print{.form .e{padding:.2rem .4rem}.answer{padding:.4rem .8rem}}
";
