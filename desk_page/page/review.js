// The review as it stands in this window: which document and page are open, and what the desk told of them. It tells the
// panels by events: `doc` when the open document was looked at, `page` when a page was read, `row` for any document told
// whole, `states` with the numbers of those of which something else stands than was known, `aged` when what stands was told
// a while ago, `called` when calls were made, `unsure` when a call may have been made or not, and when its document was
// looked at again.
import { changeInWords, isAlike } from './changes.js'
import { NoAnswer } from './desk.js'
import { knowStaff, whoIs } from './staff.js'
import { isSameRow, rowOf } from './states.js'
import { Words } from './words.js'

// The window isn't ready for what was pressed.
export class NotNow extends Error {}

// The document isn't as it was shown any more, so that nothing was sent.
export class Changed extends NotNow {}

const FRESH = 1000 // milliseconds for which what was told needs no second look
const TO_READ = 600 // milliseconds in which nobody has read that a document was changed

export class Review extends EventTarget {
  constructor(desk, pages, looks) {
    super()
    Object.assign(this, { desk, pages, looks })
    this.count = 0
    this.doc = null // the open document, as the desk told it
    this.page = 0 // the open page, from 1
    this.image = null // its pixels, or why they couldn't be read
    this.wanted = null // what is being opened
    this.rows = new Map() // what stands of each document, by its number
    this.docs = new Map() // the documents that were told whole, as long as they stand so
    this.times = new Map() // when they were
    this.changes = new Map() // for each document that was seen to change, which change of this window it was
    this.latest = 0
    this.seen = new Map() // the pages that were shown of each document
    this.words = new Words(desk)
    this.marked = new Set() // the documents that were marked for a call
    this.isShown = false // the open page stands on the screen, so that calls may be made
    this.unsure = new Set() // the documents with a call that may have been made or not
    this.undoing = null // the confirmed document that is about to be edited
    this.editing = null // the edit that is under way
    this.changed = null // the document that was found changed last, when, and what was said of it
    this.unsent = () => [] // what a panel holds that wasn't sent
    this.prepare = async () => {} // has a page ready to be painted
  }

  tell(name, detail) {
    this.dispatchEvent(new CustomEvent(name, { detail }))
  }

  async lookAt(number, isBehind = false) {
    const doc = await this.desk.see(`/docs/${number}`, isBehind)
    this.noteRow(rowOf(doc, this.rows.get(number)))
    this.docs.set(number, doc)
    this.times.set(number, performance.now())
    await knowStaff(this.looks, doc.editor, doc.confirmer)
    this.tell('row', doc)
    if (this.unsure.delete(number)) this.tell('unsure', { docs: [...this.unsure], seen: number })
    return doc
  }

  // What was told of many documents, each later than what was told of it before.
  noteStates(rows) {
    const changed = rows.filter((row) => this.noteRow(row)).map(({ doc }) => doc)
    this.count = Math.max(this.count, ...changed)
    if (changed.length > 0) this.tell('states', changed)
  }

  // Whether this wasn't known. A document that was told whole otherwise isn't so any more.
  noteRow(row) {
    const before = this.rows.get(row.doc)
    if (before !== undefined && isSameRow(before, row)) return false
    this.rows.set(row.doc, row)
    this.docs.delete(row.doc)
    if (before !== undefined) this.changes.set(row.doc, this.latest += 1)
    return true
  }

  // Opens a document at a page. Where another is asked for meanwhile, the last one asked for is opened.
  async open(number, page = 1) {
    if (number === undefined || number < 1 || number > this.count) return
    await this.afterEdits()
    if (number !== this.doc?.doc) this.warn(number)
    await this.go({ number, page, known: null })
  }

  // Opens a document that comes next: where it was fetched ahead it stands at once, and is looked at anew behind.
  async step(number) {
    if (this.editing !== null) await this.afterEdits()
    if (number === undefined || number === this.doc?.doc) return
    this.warn(number)
    const isAhead = this.pages.known(number, 1) !== undefined
    await this.go({ number, page: 1, known: isAhead ? this.docs.get(number) ?? null : null, isStep: true })
  }

  // What was typed and not sent is left at the second press alone.
  warn(number) {
    const unsent = this.doc === null ? [] : this.unsent()
    const isWarned = this.warned === number
    this.warned = unsent.length > 0 && !isWarned ? number : null
    if (this.warned !== null) throw new NotNow(`Not sent: ${unsent.join(', ')}. Press again to leave that.`)
  }

  // Turns to a page of the open document, which isn't looked at once more.
  async turn(page) {
    if (this.doc === null || page < 1 || page > this.doc.pages) return
    await this.go({ number: this.doc.doc, page, known: this.doc })
  }

  async go(wanted) {
    this.wanted = wanted
    this.isShown = false
    if (this.isOpening) return
    this.isOpening = true
    try {
      while (this.wanted !== null) await this.openWanted()
    } finally {
      this.isOpening = false
      this.isShown = this.doc !== null
    }
  }

  async openWanted() {
    const { wanted } = this
    try {
      const doc = wanted.known ?? (await this.lookAt(wanted.number))
      if (this.wanted !== wanted) return
      const page = Math.min(wanted.page, doc.pages)
      const image = await this.pages.read(wanted.number, page)
      if (this.wanted === wanted) await this.prepare(image, wanted.number, page)
      if (this.wanted !== wanted) return
      this.show(doc, page, image)
      this.wanted = null
      const isOld = performance.now() - this.times.get(doc.doc) > FRESH
      if (wanted.isStep && isOld) this.tell('aged', doc)
    } catch (why) {
      if (this.wanted !== wanted) return
      this.wanted = null
      throw why
    }
  }

  show(doc, page, image) {
    this.undoing = null
    Object.assign(this, { doc, page, image })
    const seen = this.seen.get(doc.doc) ?? new Set()
    this.seen.set(doc.doc, seen.add(page))
    this.tell('doc', doc)
    this.tell('page', image)
  }

  // the open document once more
  async look() {
    const doc = await this.lookAt(this.doc.doc)
    if (doc.doc === this.doc.doc) this.showAnew(doc)
  }

  showAnew(doc) {
    this.doc = doc
    this.tell('doc', doc)
  }

  // What stands was told a while ago: it is shown anew where it isn't so any more.
  async refresh() {
    const shown = this.doc
    const doc = await this.lookAt(shown.doc, true)
    if (this.doc === shown && !isAlike(shown, doc)) this.showAnew(doc)
  }

  // Makes a call on the open document, and looks at what it did: the document before and after. A call is for what stood on
  // the screen when it was pressed for, and one after another: where one fails, so do those pressed for meanwhile.
  async edit(what, members, shown = this.doc) {
    if (!this.isShown) throw new NotNow('The document isn’t on the screen yet. Press again.')
    this.haveItRead(shown)
    const own = this.editAfter(this.editing, what, members, shown)
    this.editing = own
    try {
      return await own
    } finally {
      if (this.editing === own) this.editing = null
    }
  }

  async editAfter(before, what, members, shown) {
    const last = (await before)?.after
    return this.editAsShown(what, members, last?.doc === shown.doc ? last : shown)
  }

  // The document is looked at once more just before, and where it isn't as it was shown, it is shown as it is, and nothing
  // is sent.
  async editAsShown(what, members, shown) {
    this.warnOfConfirmed(what, shown)
    const before = await this.lookAt(shown.doc)
    if (!isAlike(shown, before)) {
      if (this.doc.doc === shown.doc) this.showAnew(before)
      const text = `Nothing was sent: ${changeInWords(shown, before)} Do it again if it is to be.`
      this.changed = { doc: shown.doc, at: performance.now(), text }
      throw new Changed(text)
    }
    await this.make(shown.doc, what, members)
    const after = await this.lookAfter(shown.doc)
    if (what === 'call') this.tell('called', [{ before, after }])
    return { before, after }
  }

  // what is pressed right after a change was told isn't pressed because of it
  haveItRead({ doc }) {
    const { changed } = this
    if (changed?.doc === doc && performance.now() - changed.at < TO_READ) throw new Changed(changed.text)
  }

  // an edit is answered before another document is opened; where it failed, none is
  async afterEdits() {
    while (this.editing !== null) await this.editing
  }

  async lookAfter(number) {
    try {
      const doc = await this.lookAt(number)
      if (this.doc.doc === number) this.showAnew(doc)
      return doc
    } catch (why) {
      why.message = `It was done, but document ${number} wasn’t told anew: look again (L). ${why.message}`
      throw why
    }
  }

  // Where no desk answers, the call may have been made or not, until its document was looked at again.
  async make(doc, what, members) {
    try {
      await this.desk.make(`/docs/${doc}/${what}`, members)
    } catch (why) {
      if (why instanceof NoAnswer) this.tell('unsure', { docs: [...this.unsure.add(doc)] })
      throw why
    }
  }

  // An edit takes a confirmation away: it is made at the second press alone.
  warnOfConfirmed(what, { doc, confirmer }) {
    const isWarned = this.undoing === doc
    this.undoing = null
    if (confirmer === 0 || isWarned || what === 'confirm' || what === 'back') return
    this.undoing = doc
    throw new NotNow(`Document ${doc} is confirmed by ${whoIs(confirmer)}, and this would undo it. Do it again to go on.`)
  }

  // the words of a page, of the open one or another
  readWords(doc = this.doc.doc, page = this.page, isBehind = false) {
    return this.words.read(doc, page, isBehind)
  }

  // the words of the open page where they were asked for before
  knownWords() {
    return this.words.known(this.doc.doc, this.page)
  }
}
