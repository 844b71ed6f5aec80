// Work that takes many calls, one document after another: it says how far it is, and Escape stops it.

const SAID_EACH = 500 // milliseconds

let current = null

// stops what is under way; whether there was something
export function stopWalk() {
  if (current === null) return false
  current.isStopped = true
  return true
}

// Does `step` for 0, 1, .. below `count`, until it answers false, and tells `far` how many are done from time to time. The
// answer is how many were done, and whether Escape stopped it. One walk goes at a time: a second one stops the first.
export async function walk(count, step, far) {
  stopWalk()
  const own = { isStopped: false }
  current = own
  let said = performance.now()
  let done = 0
  try {
    for (let goesOn = true; goesOn && done < count && !own.isStopped;) {
      if (performance.now() - said > SAID_EACH) {
        far(done)
        said = performance.now()
      }
      goesOn = (await step(done)) !== false
      done += 1
    }
  } finally {
    if (current === own) current = null
  }
  return { done, isStopped: own.isStopped }
}
