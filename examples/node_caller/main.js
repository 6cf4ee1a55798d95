const { spawn } = require('node:child_process');
const { createInterface } = require('node:readline');

const engine = spawn('pressclip', ['run', '4', 'hits'], { stdio: ['pipe', 'pipe', 'inherit'] });
const waiting = [];
createInterface({ input: engine.stdout }).on('line', (line) => waiting.shift()(JSON.parse(line)));
engine.on('error', (error) => { throw error; });

function ask(request) {
    engine.stdin.write(`${JSON.stringify(request)}\n`);
    return new Promise((resolve) => { waiting.push(resolve); });
}

async function main() {
    console.log(await ask({ op: 'register', queries: [{ id: 'tea-prices', query: '+tea pric*' }] }));
    const articles = [{ id: 'a1', fields: { text: 'Tea prices rise again' } }];
    const { alerts } = await ask({ op: 'match', articles });
    for (const alert of alerts) console.log(alert.article, alert.queries, JSON.stringify(alert.hits));
    engine.stdin.end();
}

main();
