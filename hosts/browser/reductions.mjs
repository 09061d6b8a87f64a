// How many reductions a run on the proved machine makes. `m2 run` says only whether a run ends within so many, and every run of a
// program is the same: so the least number with which it ends is the count.

const FIRST = 1024;
const STILL_RUNNING = 4;
/** A program whose count takes longer to find has none. */
const MOST_MILLISECONDS = 5000;

/** The count of the run that `asked` names, which ends within `asked.steps`; nothing where it takes too long to find. */
export async function countOf(compiler, asked) {
  const until = performance.now() + MOST_MILLISECONDS;
  const ends = async (steps) => (await compiler.call({ ...asked, steps }, () => {})).status !== STILL_RUNNING;
  // it does not end within `least`, and ends within `most`
  let least = 0;
  let most = FIRST;
  while (most < asked.steps && performance.now() < until && !(await ends(most))) {
    least = most;
    most *= 2;
  }
  most = Math.min(most, asked.steps);
  while (most - least > 1 && performance.now() < until) {
    const middle = Math.floor((least + most) / 2);
    if (await ends(middle)) {
      most = middle;
    } else {
      least = middle;
    }
  }
  return performance.now() < until ? most : undefined;
}
