// What tools/browser asks of a page: how wide bars and runs are, which words overlap or stick out, what lights up.
const box = (e) => e.getBoundingClientRect();
const words = (svg) => [...svg.querySelectorAll('text')].map((e) => [e.textContent, box(e)]);
const beside = (a, b) => a.right - 1.5 <= b.left || b.right - 1.5 <= a.left;
const apart = (a, b) => beside(a, b) || a.bottom - 4 <= b.top || b.bottom - 4 <= a.top;
const pairs = (all) => all.flatMap(([name, a], at) =>
    all.slice(at + 1).filter(([, b]) => !apart(a, b)).map(([other]) => name + ' on ' + other));
const sticksOut = (a, b) =>
    a.left < b.left - 3 || a.right > b.right + 3 || a.top < b.top - 3 || a.bottom > b.bottom + 3;
const outside = (svg) => words(svg).filter(([, a]) => sticksOut(a, box(svg))).map(([name]) => name);
const isWide = (table) => box(table).right > box(table.parentElement).right + 1;
const bench = (section) => {
    const svgs = [...section.querySelectorAll('svg')];
    const runs = [...section.querySelectorAll('rect.run')].map((e) => box(e).width);
    const wide = section.querySelector('svg.wide');
    return {
        id: section.id,
        text: section.innerText || section.textContent,
        runs: runs.reduce((sum, width) => sum + width, 0),
        bar: wide ? box(wide).width * 960 / 964 : 0,
        overlaps: svgs.flatMap((svg) => pairs(words(svg))),
        outside: svgs.flatMap(outside),
        wide: [...section.querySelectorAll('table')].filter(isWide).map((table) => table.className),
    };
};
const lamp = document.querySelector('section tr[data-l]');
if (lamp) lamp.dispatchEvent(new MouseEvent('mouseover', {bubbles: true}));
const told = {
    benches: [...document.querySelectorAll('section')].map(bench),
    lit: document.querySelectorAll('.hi').length,
    wide: document.documentElement.scrollWidth,
    window: window.innerWidth,
    high: Math.ceil(document.querySelector('main').getBoundingClientRect().height),
};
const pre = document.createElement('pre');
pre.id = 'measured';
pre.textContent = JSON.stringify(told);
document.querySelector('body').append(pre);
