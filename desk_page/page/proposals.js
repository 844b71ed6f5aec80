// Boxes that are proposed for the hits of phrases: which there are, and which of them are taken.
import { grouped } from './grouped.js'
import { hitsInRange } from './hits.js'
import { statesInRange } from './range_states.js'
import { areInside, boxesAround, isCovered, wordsOfHit } from './term_boxes.js'
import { walk } from './walk.js'

const MOST = 20000

const nameOf = ({ page, left, top, width, height }) => `${page} ${left} ${top} ${width} ${height}`

export class Proposals extends EventTarget {
  constructor(review) {
    super()
    Object.assign(this, { review })
    this.forget()
  }

  forget() {
    this.set({ all: [], values: [], covered: 0 })
  }

  set(what) {
    Object.assign(this, what)
    this.dispatchEvent(new CustomEvent('change'))
  }

  // Proposes boxes for all hits in a range of documents. The answer is false where it was stopped: then nothing is proposed.
  async propose(phrases, range, far) {
    this.forget()
    const { hits, isStopped } = await hitsInRange(this.review.looks, phrases, range, MOST, (k, doc) =>
      far(`Looking for “${phrases[k].text}”, ${k + 1} of ${phrases.length}: at document ${doc.toLocaleString('en')}. Escape stops.`))
    if (isStopped) return false
    const pages = pagesOf(hits.filter(({ page }) => page > 0))
    const states = await this.statesOf(pages, far)
    if (states === null) return false
    const found = { all: [], covered: 0, told: null, states }
    const { done } = await walk(pages.length, (k) => this.addPage(pages[k], found), (k) =>
      far(`Read ${k.toLocaleString('en')} of ${pages.length.toLocaleString('en')} pages. Escape stops.`))
    if (done < pages.length) return false
    this.set({ all: found.all, covered: found.covered, values: hits.filter(({ page }) => page === 0) })
    return true
  }

  async addPage({ doc, page, hits }, found) {
    if (found.told?.doc !== doc) found.told = await this.boxed(doc, found.states)
    const words = await this.review.readWords(doc, page, true)
    const boxes = found.told.boxes.filter((box) => box.page === page)
    const names = new Set()
    for (const hit of hits) {
      const chosen = wordsOfHit(words, hit)
      if (isCovered(chosen, boxes)) {
        found.covered += 1
        continue
      }
      for (const box of await this.boxesOf(chosen, words, { doc, page })) {
        const name = nameOf(box)
        if (!names.has(name)) found.all.push({ ...box, num: found.all.length, isTaken: true })
        names.add(name)
      }
    }
  }

  // a document that has no box isn't looked at for now; each is before its boxes are put
  boxed(doc, states) {
    return states.get(doc)?.boxes === 0 ? { doc, boxes: [] } : this.review.lookAt(doc, true)
  }

  async statesOf(pages, far) {
    const [from, to] = [pages[0]?.doc, pages.at(-1)?.doc]
    return from === to ? new Map() : statesInRange(this.review, { from, to }, (text) => far(`${text} Escape stops.`))
  }

  // the page's sides are asked for only where a box might leave it
  async boxesOf(chosen, words, { doc, page }) {
    const boxes = boxesAround(chosen, words)
    const isSure = areInside(boxes, words)
    const sides = isSure ? null : await this.review.pages.read(doc, page, true)
    const inside = isSure ? boxes : boxesAround(chosen, words, sides.fault === undefined ? sides : { width: 0, height: 0 })
    return inside.map((box) => ({ ...box, doc, page }))
  }

  // ---- which

  taken() {
    return this.all.filter(({ isTaken }) => isTaken)
  }

  on(doc, page) {
    return this.all.filter((it) => it.doc === doc && (page === undefined || it.page === page))
  }

  // the documents in order, each with its boxes
  byDocument(boxes = this.all) {
    return grouped(boxes, ({ doc }) => doc)
  }

  take(boxes, isTaken) {
    for (const box of boxes) box.isTaken = isTaken
    this.dispatchEvent(new CustomEvent('taken'))
  }

  // what a box of the desk covers by now isn't proposed any more
  drop(docs) {
    const standing = new Map(docs.map((doc) => [doc.doc, doc.boxes]))
    const isLeft = ({ doc, page, words }) => !isCovered(words, (standing.get(doc) ?? []).filter((box) => box.page === page))
    const all = this.all.filter(isLeft)
    if (all.length < this.all.length) this.set({ all })
  }
}

// hits by page, in the order of documents and pages
function pagesOf(hits) {
  const pages = [...grouped(hits, ({ doc, page }) => `${doc} ${page}`).values()]
  return pages
    .map((own) => ({ doc: own[0].doc, page: own[0].page, hits: own.sort((a, b) => a.place - b.place) }))
    .sort((a, b) => a.doc - b.doc || a.page - b.page)
}
