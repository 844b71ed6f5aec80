// What stands of the documents of a range, as a desk tells it now.
import { walk } from './walk.js'

const MOST = 500 // documents that an answer tells

// the rows by their documents, or null where it was stopped
export async function statesInRange(review, { from, to }, far) {
  const states = new Map()
  const answers = Math.ceil((to - from + 1) / MOST)
  const { done } = await walk(answers, async (k) => {
    const rows = await review.looks.states(from + k * MOST, true)
    review.noteStates(rows)
    for (const row of rows) states.set(row.doc, row)
  }, (k) => far(`Asked how ${(k * MOST).toLocaleString('en')} documents are called.`))
  return done < answers ? null : states
}
