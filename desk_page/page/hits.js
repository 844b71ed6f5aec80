// The hits of phrases in a range of documents, part by part as the desks tell them.
import { NotNow } from './review.js'
import { walk } from './walk.js'

// `far` is told the phrase that is being looked for and the document that it came to. The answer has the hits, each with its
// phrase, and whether it was stopped; more than `most` are refused.
export async function hitsInRange(looks, phrases, { from, to }, most, far) {
  const hits = []
  let k = 0
  let at = { next: from, next_page: 0 }
  const { isStopped } = await walk(Infinity, async () => {
    const phrase = phrases[k]
    at = await looks.find(phrase.terms, at.next, at.next_page, true)
    for (const hit of at.hits) if (hit.doc <= to) hits.push({ ...hit, phrase })
    if (hits.length > most) throw new NotNow(tooMany(most))
    if (at.next === 0 || at.next > to) {
      k += 1
      at = { next: from, next_page: 0 }
    }
    return k < phrases.length
  }, () => far(k, at.next))
  return { hits, isStopped: isStopped && k < phrases.length }
}

const tooMany = (most) => `There are more than ${most.toLocaleString('en')} hits: look for less, or in fewer documents.`
