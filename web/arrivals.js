// Arrivals that fit a design, to begin with: a horizon, and one request of each object that the outside requests.
import { microsecondsOf, ticksOf } from "./clock.js";
import { readOutline } from "./outline.js";

const MOST_RELEASES = 1000; // about, up to the horizon
const MOST_TICKS = 1000000000;

/** The ticks of an attribute of an object; or null where it has none. */
function attributeOf(object, name, microseconds) {
  const time = object.attributes.get(name);
  return time === undefined ? null : ticksOf(time, microseconds);
}

/** The ticks of two of the longest periods, or fewer where there would be too many releases. */
function horizonOf(objects, microseconds) {
  const periods = objects.map((one) => attributeOf(one, "period", microseconds) ?? attributeOf(one, "separation", microseconds))
    .filter((ticks) => ticks !== null && ticks >= 1);
  if (periods.length === 0) return 100;
  const rate = periods.reduce((sum, ticks) => sum + 1 / ticks, 0);
  return Math.min(MOST_TICKS, Math.max(Math.min(...periods), Math.min(2 * Math.max(...periods), Math.floor(MOST_RELEASES / rate))));
}

/** The text of arrivals that fit a design, as far as its objects can be read. */
export function arrivalsFor(/** @type {string} */ design) {
  const { objects } = readOutline(design);
  const microseconds = microsecondsOf(design);
  const horizon = horizonOf(objects, microseconds);
  const outside = objects.filter((one) => one.kind === "sporadic" && !one.hasChildren() && one.attributes.has("arrival_jitter"));
  const requests = outside.map((one, place) => {
    const hasValue = one.operations.some(({ parameters }) => parameters.length > 0);
    return `AT ${Math.floor(horizon / 10) + place} ${one.name}${hasValue ? " 1" : ""};\n`;
  });
  return `UNTIL ${horizon};\n${requests.join("")}`;
}
