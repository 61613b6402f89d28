// Asks nodes by a plan, and prints a line of JSON for each operation: a driver of clients/conformance.py, which has its words.
//
//     conformance.js OPERATIONS PLAN NODE,ADDRESS,SESSION...
import { CcnodeError, DeadlineExceeded, connect } from './index.js';

const NAME = 'javascript';
// Milliseconds. Each fiftieth operation gets no time to speak of.
const PATIENCE = 120_000;
const HASTE = 1;
// A snapshot ends by its deadline where others write all the time.
const SNAPSHOT_PATIENCE = 2_000;

const textOf = (bytes) => Buffer.from(bytes).toString();
const rowOf = (row) => [row.node, Number(row.number), textOf(row.text), Number(row.max), row.flag, row.set];

// Each operation by its letter: its name, its argument, and how it is asked.
const OPERATIONS = {
  s: {
    name: 'store',
    argument: ({ place, session }) => `${NAME}-${session}-${place}`,
    ask: (client, text, options) => client.store(text, options),
  },
  c: { name: 'collect', ask: async (client, _, options) => (await client.collect(options)).map(rowOf) },
  n: {
    name: 'snapshot',
    patience: SNAPSHOT_PATIENCE,
    ask: async (client, _, options) => {
      const { rows, collects } = await client.snapshot(options);
      return { rows: rows.map(rowOf), collects };
    },
  },
  m: {
    name: 'max',
    argument: ({ place, session }) => 1000 * place + session,
    ask: (client, number, options) => client.max(number, options),
  },
  M: { name: 'read_max', ask: async (client, _, options) => Number(await client.readMax(options)) },
  f: { name: 'flag', ask: (client, _, options) => client.flag(options) },
  F: { name: 'read_flag', ask: (client, _, options) => client.readFlag(options) },
  a: {
    name: 'add',
    argument: ({ place, session, operations }) => 4 * session + Math.floor((4 * place) / operations),
    ask: (client, number, options) => client.add(number, options),
  },
  S: { name: 'read_set', ask: (client, _, options) => client.readSet(options) },
};

function operationAt(plan, { place, session, operations }) {
  const letter = plan[(place + session) % plan.length];
  return OPERATIONS[letter === 'f' && 2 * place < operations ? 'F' : letter];
}

async function answerOf(asked) {
  try {
    return (await asked) ?? 'Stored';
  } catch (error) {
    if (error instanceof DeadlineExceeded) {
      return { deadline: error.isPending ? 'pending' : 'unsent' };
    }
    if (error instanceof CcnodeError) {
      return { error: `${error}` };
    }
    throw error;
  }
}

async function drive(operations, plan, node, address, session) {
  let client = await connect(address, session, { timeout: PATIENCE });
  for (let place = 0; place < operations; place += 1) {
    const about = { place, session, operations };
    const operation = operationAt(plan, about);
    const argument = operation.argument?.(about) ?? null;
    const timeout = place % 50 === 25 ? HASTE : (operation.patience ?? PATIENCE);
    // The clock has milliseconds: the start is told too early rather than too late, and the end too late.
    const start = 1000 * Date.now();
    const answer = await answerOf(operation.ask(client, argument, { timeout }));
    const end = 1000 * (Date.now() + 1);
    const line = { client: NAME, session, node, operation: operation.name, argument, start, end, answer };
    process.stdout.write(`${JSON.stringify(line)}\n`);
    if (place % 400 === 399) {
      client.close();
      client = await connect(address, session, { timeout: PATIENCE });
    }
  }
  client.close();
}

const [operations, plan, ...words] = process.argv.slice(2);
await Promise.all(
  words.map((word) => {
    const [node, address, session] = word.split(',');
    return drive(Number(operations), plan, Number(node), address, Number(session));
  }),
);
