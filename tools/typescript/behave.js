// Runs outputs: reads a list of { name, code } as JSON from standard input, runs each as a module in a context of its own with runtime.js, and prints
// what each logged as JSON: { name, lines, registrations }. The last line of a log names what the module exports, or what it threw.
// Wants node --experimental-vm-modules.
'use strict';
const fs = require('fs');
const path = require('path');
const vm = require('vm');

const runtime = fs.readFileSync(path.join(__dirname, 'runtime.js'), 'utf8');

async function run({ name, code }) {
  const context = vm.createContext({});
  const log = vm.runInContext(runtime, context);
  try {
    const module = new vm.SourceTextModule(code, { context });
    await module.link(() => { throw new Error('an import'); });
    await module.evaluate({ timeout: 5000 });
    const space = module.namespace;
    log.lines.push(`exports ${Object.keys(space).map((k) => `${k}: ${log.describe(space[k])}`).join(', ')}`);
  } catch (e) {
    log.lines.push(`throws ${e.name}`);
  }
  return { name, lines: [...log.lines], registrations: [...log.registrations] };
}

(async () => {
  const results = [];
  for (const output of JSON.parse(fs.readFileSync(0, 'utf8'))) results.push(await run(output));
  process.stdout.write(JSON.stringify(results));
})();
