// What `explain` writes, or `analyse`, as data: of what each response is made, what it is late by, and the chains of requests.

/** The numbers of the words from a place on, each behind its name. */
function numbersFrom(words, place) {
  const found = {};
  for (let index = place; index + 1 < words.length; index += 2) found[words[index]] = Number(words[index + 1]);
  return found;
}

/** A thread. What its lines don't tell is null: of one that is given up, `beyond` or `behind`, there is no response. */
function threadOf(words) {
  const told = numbersFrom(words, 2);
  const { priority, period, deadline, cost, blocking } = told;
  return { name: words[1], priority, period, deadline, cost, blocking, jitter: told.jitter ?? 0, response: told.response ?? null, started: null,
    blocked: null, delayed: [], spare: null, late: null, beyond: null, behind: null };
}

/** Reads the lines of `explain`, or of `analyse`, whose threads have no causes. Clients and servers are those of a design with background objects. */
export function readExplanation(text) {
  const found = { miss: null, threads: [], chains: [], ceilings: [], clients: [], servers: [] };
  const byName = new Map();
  for (const line of text.split("\n")) {
    const words = line.split(" ");
    const [kind, name] = words;
    const thread = byName.get(name);
    if (kind === "miss") found.miss = line;
    else if (kind === "thread" || kind === "beyond" || kind === "behind") {
      const made = threadOf(kind === "behind" ? words.slice(0, -2) : words);
      if (kind === "beyond") made.beyond = numbersFrom(words, words.lastIndexOf("value"));
      if (kind === "behind") made.behind = words.at(-1);
      found.threads.push(made);
      byName.set(name, made);
    } else if (kind === "chain") {
      found.chains.push({ name, ...numbersFrom(words.slice(0, 6), 2), by: words.slice(7) });
    } else if (kind === "ceiling") found.ceilings.push({ name, ceiling: Number(words[2]) });
    else if (kind === "client") found.clients.push({ name, ...numbersFrom(words, 2) });
    else if (kind === "server") found.servers.push({ name, ...numbersFrom(words, 2) });
    else if (thread === undefined) continue;
    else if (kind === "started") thread.started = { by: words[3], ...numbersFrom(words, 4) };
    else if (kind === "blocked") thread.blocked = { by: words[3], inside: words[5], ticks: Number(words[7]) };
    else if (kind === "delayed") thread.delayed.push({ by: words[3], ...numbersFrom(words, 4) });
    else if (kind === "slack") thread.spare = numbersFrom(words, 2);
    else if (kind === "late") thread.late = numbersFrom(words, 2);
  }
  return found;
}

/** What each thread above takes of a response, by the lines of `explain`, or by the response equation where there are none. */
function delaysOf(thread, threads) {
  if (thread.delayed.length > 0 || thread.response === null) return thread.delayed.map(({ by, activations, ticks }) => ({ by, times: activations, ticks }));
  return threads.filter((other) => other.priority > thread.priority).map((other) => {
    const times = Math.ceil((thread.response + other.jitter) / other.period);
    return { by: other.name, times, ticks: times * other.cost };
  });
}

/** Of what a response is made: the terms, their sum, and whether that is the response. */
export function partsOf(thread, threads) {
  const delays = delaysOf(thread, threads);
  const sum = delays.reduce((whole, { ticks }) => whole + ticks, thread.cost + thread.blocking);
  return { delays, sum, isSum: sum === thread.response };
}

/** The terms of a response as words. */
export function termsOf(thread, threads, clock) {
  const each = (name) => threads.find((other) => other.name === name)?.cost;
  const told = ({ by, times, ticks }) => {
    const cost = each(by);
    return times * cost === ticks ? `${by} ${times} × ${clock.number(cost)}` : `${by} ${clock.number(ticks)}`;
  };
  return [`cost ${clock.number(thread.cost)}`, `blocking ${clock.number(thread.blocking)}`, ...partsOf(thread, threads).delays.map(told)];
}

/** What is said of threads whose response is no sum of its terms; or null. */
export function wrongSums(threads) {
  const wrong = threads.filter((thread) => thread.response !== null && !partsOf(thread, threads).isSum).map((thread) => thread.name);
  return wrong.length === 0 ? null : `The terms don't come to the response of ${wrong.join(", ")}: these lines are none of the response equations.`;
}

/** The ticks that a thread has left before its deadline, below 0 where it is late; null where it is given up. */
export function slackOf(thread) {
  return thread.response === null ? null : thread.deadline - thread.response;
}

/** The ticks that it has left before its next release, whose jitter and response have to come before that. */
export function spareOf(thread) {
  return thread.response === null ? null : thread.period - thread.jitter - thread.response;
}

/** The part of the processor that threads take at most, as a percentage rounded up. */
export function utilisationOf(threads) {
  const part = threads.reduce((whole, { cost, period }) => whole + cost / period, 0);
  return `${(Math.ceil(part * 10000 - 1e-9) / 100).toFixed(2)} %`;
}

/** The threads of a chain, the first one first: each with its response. */
export function chainLinks(chain, threads) {
  return [...chain.by].reverse().concat(chain.name).map((name) => threads.find((one) => one.name === name)).filter((one) => one !== undefined);
}

/**
 * The bounds of a chain: the thread of lowest priority, whose response bounds it, and the sum of all responses, which is a looser bound; and whether
 * the line of the chain tells the former.
 */
export function chainBounds(chain, threads) {
  const links = chainLinks(chain, threads);
  const lowest = links.reduce((one, other) => (other.priority < one.priority ? other : one), links[0]);
  const sum = links.reduce((whole, { response }) => whole + (response ?? 0), 0);
  return { links, lowest, sum, isLowest: lowest !== undefined && lowest.response === chain.response };
}
