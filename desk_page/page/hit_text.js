// What a hit of a search stands in: the line of words around it on its page, or the value of its field.

const AROUND = 9 // words before and after it, at most

// the pieces of a text: { before, hit, after }, the hit's words apart
function cut(texts, place, count, first = 0, end = texts.length) {
  const from = Math.max(first, place - 1 - AROUND)
  const to = Math.min(end, place - 1 + count + AROUND)
  const part = (a, b) => texts.slice(a, b).join(' ')
  return {
    before: (from > first ? '… ' : '') + part(from, place - 1),
    hit: part(place - 1, place - 1 + count),
    after: part(place - 1 + count, to) + (to < end ? ' …' : ''),
  }
}

// the words of a hit of a page
export const wordsOf = (hit, words) => words.slice(hit.place - 1, hit.place - 1 + hit.count)

// the hit with what stands on the same lines
export function lineOf(hit, words) {
  const lines = new Set(wordsOf(hit, words).map(({ line }) => line))
  let first = hit.place - 1
  let end = first + hit.count
  while (first > 0 && lines.has(words[first - 1].line)) first -= 1
  while (end < words.length && lines.has(words[end].line)) end += 1
  return cut(words.map(({ text }) => text), hit.place, hit.count, first, end)
}

// the hit in the value of its field, which is cut at every space
export function valueOf(hit, values) {
  const { name, value } = values.find(({ field }) => field === hit.field) ?? { name: `field ${hit.field}`, value: '' }
  return { name, ...cut(value.split(' ').filter((text) => text !== ''), hit.place, hit.count) }
}
