document.querySelectorAll('section').forEach(s=>['mouseover','mouseout'].forEach(k=>s.addEventListener(k,e=>{
const g=e.target.closest('[data-l]');
if(g)s.querySelectorAll('[data-l="'+g.dataset.l+'"]').forEach(x=>x.classList.toggle('hi',k=='mouseover'))})))
