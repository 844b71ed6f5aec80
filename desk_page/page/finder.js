// Find: a panel in the place of the list of documents. Words are typed, and what was found is listed as it comes, each hit with
// its line, which is asked for where it rests in sight.
import { made, button } from './elements.js'
import { lineOf, valueOf } from './hit_text.js'
import { reasonOf } from './messages.js'
import { NotNow } from './review.js'
import { Rows, piece } from './rows.js'
import { stopWalk } from './walk.js'

const HIGH = 4.4 // of a row, in em
const HINT = 'Words in turn, at most 8. # is a digit; * at the front or end of a word is anything.'
const counted = (number, one, many) => `${number.toLocaleString('en')} ${number === 1 ? one : many}`

export class Finder {
  // `panel` is where it stands, `place` keeps the search in the address, `documents` is the list of which it takes the place
  constructor(review, search, { panel, place, marks, names, documents, act, behind }) {
    Object.assign(this, { review, search, panel, place, marks, names, documents, at: -1, isAsking: false })
    this.make(act)
    const keys = { placeOf: (key) => key + 1, at: (place) => place - 1 }
    Object.defineProperty(keys, 'count', { get: () => search.hits.length })
    this.rows = new Rows({
      list: this.hits, tall: this.tall, prefix: 'hit', high: HIGH, keys, fill: (row, key) => this.fill(row, key),
      rest: behind(() => this.ask()),
    })
    search.addEventListener('begun', () => this.showNone())
    search.addEventListener('hits', () => this.grow())
    search.addEventListener('ended', () => this.tell())
    names.addEventListener('told', () => this.rows.redrawAll())
    review.words.addEventListener('told', () => this.rows.redrawAll())
  }

  make(act) {
    this.words = made('input', {
      name: 'words', autocomplete: 'off', spellcheck: 'false', 'aria-label': 'Words to find', title: HINT, required: true,
    })
    this.form = made('form', { id: 'find_words' }, this.words, ' ', made('button', {}, 'Find'))
    this.told = made('p', { id: 'find_told', role: 'status' })
    this.stop = button('Stop', { id: 'stop_find' })
    this.listThem = button('', { id: 'list_found' })
    this.forget = button('Clear', { id: 'clear_find' })
    this.tall = made('div', { id: 'hits_tall', role: 'presentation' })
    this.hits = made('div', { id: 'hits', role: 'listbox', 'aria-label': 'Hits', tabindex: '0' }, this.tall)
    const back = button('Documents', { id: 'close_finder' })
    this.panel.append(
      made('p', { class: 'head' }, made('strong', {}, 'Find'), back), this.form,
      made('p', { class: 'aside' }, HINT),
      this.told, made('p', {}, this.stop, ' ', this.listThem, ' ', this.forget), this.hits)
    this.form.addEventListener('submit', act((event) => {
      event.preventDefault()
      return this.find(this.words.value)
    }))
    this.tall.addEventListener('click', act((event) => this.press(event)))
    this.stop.addEventListener('click', () => stopWalk())
    this.listThem.addEventListener('click', () => this.list())
    this.forget.addEventListener('click', act(() => this.clear()))
    back.addEventListener('click', () => this.close())
    this.tell()
  }

  // ---- the panel

  open() {
    this.show(true)
    this.words.focus()
    this.words.select()
  }

  close() {
    const hadFocus = this.panel.contains(document.activeElement)
    this.show(false)
    this.documents.showOpen()
    if (hadFocus) this.documents.list.focus()
  }

  // the documents that were found
  list() {
    this.documents.showFound(true)
    this.close()
  }

  show(isOpen) {
    this.panel.hidden = !isOpen
    this.panel.parentElement.classList.toggle('finding', isOpen)
    if (!isOpen) return
    this.rows.draw()
    if (this.at >= 0) this.rows.makeActive(this.at)
  }

  // ---- the search

  async find(text) {
    this.hits.focus()
    await this.begin(text)
    return this.inWords()
  }

  // of a link: none where it stands already
  async follow(text) {
    if (text === null || text.trim() === '' || (text === this.search.text && this.search.end?.why === undefined)) return
    this.words.value = text
    this.show(true)
    await this.begin(text)
  }

  begin(text) {
    const words = text.split(/\s+/).filter((word) => word !== '')
    this.place.keepSearch(words.join(' '))
    return this.search.begin(words, () => this.tell())
  }

  clear() {
    stopWalk()
    this.search.clear()
    this.words.value = ''
    this.place.keepSearch('')
    this.words.focus()
  }

  showNone() {
    this.at = -1
    this.marks.current = null
    this.rows.begin()
    this.hits.scrollTop = 0
    this.tell()
  }

  // more hits: those that are drawn stay
  grow() {
    this.tall.style.height = `${this.search.hits.length * HIGH}em`
    this.rows.draw()
    this.tell()
  }

  tell() {
    const { search } = this
    const text = this.inWords()
    if (this.told.textContent !== text) this.told.textContent = text
    this.stop.disabled = !search.isUnderWay
    this.listThem.disabled = search.byDoc.size === 0
    this.forget.disabled = search.terms.length === 0
    const { size } = search.byDoc
    this.listThem.textContent = size === 0 ? 'List the documents' : `List ${counted(size, 'document', 'documents')}`
  }

  inWords() {
    const { search, review } = this
    if (search.terms.length === 0) return ''
    const { hits, byDoc, end } = search
    const found = `${counted(hits.length, 'hit', 'hits')} in ${counted(byDoc.size, 'document', 'documents')}`
    const searched = `of documents 1 to ${Math.min(search.reached, review.count).toLocaleString('en')}`
    if (search.isUnderWay) return `${found} ${search.reached === 0 ? 'so far' : searched}. Escape stops.`
    if (end.why !== undefined) return `✗ ${reasonOf(end.why)}${hits.length === 0 ? '' : ` Before that: ${found}.`}`
    if (end.isFull) return `${found} ${searched}; no more are listed. Take words that are rarer.`
    return end.isStopped ? `Stopped: ${found} ${searched}.` : `${found}.`
  }

  // ---- hits

  fill(row, key) {
    const hit = this.search.hits[key]
    const isOpen = key === this.at
    row.className = `row hit_row${isOpen ? ' open' : ''}`
    row.setAttribute('aria-selected', isOpen)
    const { head, before, text, after } = this.partsOf(hit)
    const mark = document.createElement('mark')
    mark.textContent = text
    const line = piece('line', '')
    line.append(`${before} `, mark, ` ${after}`)
    row.replaceChildren(piece('number', head), piece('name', ` ${this.names.of(hit.doc, 'name')}`), line)
  }

  partsOf(hit) {
    const words = hit.page === 0 ? null : this.review.words.known(hit.doc, hit.page)
    const values = hit.page === 0 ? this.names.valuesOf(hit.doc) : null
    const head = hit.page === 0 ? `${hit.doc}` : `${hit.doc}, page ${hit.page}`
    if (words !== null) {
      const { before, hit: text, after } = lineOf(hit, words)
      return { head, before, text, after }
    }
    if (values === null) return { head, before: '', text: '…', after: '' }
    const { name, before, hit: text, after } = valueOf(hit, values)
    return { head: `${head}, ${name}`, before, text, after }
  }

  press(event) {
    const row = event.target.closest('[role=option]')
    return row === null ? null : this.goTo(Number(row.dataset.number))
  }

  // the next hit, or the one before; from where no hit was gone to, the one that comes after the open page
  step(by) {
    const { hits } = this.search
    if (this.search.terms.length === 0) return this.open()
    if (hits.length === 0) throw new NotNow('Nothing was found.')
    const at = this.at < 0 ? this.firstFrom(by) : this.at + by
    if (at < 0 || at >= hits.length) throw new NotNow(by > 0 ? 'This is the last hit.' : 'This is the first hit.')
    return this.goTo(at)
  }

  firstFrom(by) {
    const { doc, page } = this.review
    const isAfter = (hit) => hit.doc > doc.doc || (hit.doc === doc.doc && Math.max(hit.page, 1) >= page)
    const first = this.search.hits.findIndex(isAfter)
    if (first < 0) return by > 0 ? 0 : this.search.hits.length - 1
    return by > 0 ? first : Math.max(first - 1, 0)
  }

  async goTo(key) {
    const hit = this.search.hits[key]
    const page = Math.max(hit.page, 1)
    if (this.review.doc.doc !== hit.doc) await this.review.open(hit.doc, page)
    else if (hit.page !== 0 && this.review.page !== page) await this.review.turn(page)
    if (this.review.doc.doc !== hit.doc || this.search.hits[key] !== hit) return null
    const before = this.at
    this.at = key
    this.rows.makeActive(key)
    for (const it of [before, key]) this.rows.redraw(it)
    await this.marks.reveal(hit)
    return this.hitInWords(hit, key)
  }

  async hitInWords(hit, key) {
    const at = `Hit ${(key + 1).toLocaleString('en')} of ${this.search.hits.length.toLocaleString('en')}`
    if (hit.page !== 0) return `${at}: page ${hit.page} of document ${hit.doc}.`
    await this.names.read(hit.doc)
    const { name, before, hit: text, after } = valueOf(hit, this.names.valuesOf(hit.doc))
    return `${at}: ${name} of document ${hit.doc}, ${`${before} ${text} ${after}`.trim()}.`
  }

  // ---- what the rows in sight want: one after another

  async ask() {
    if (this.isAsking) return
    this.isAsking = true
    try {
      for (let work = this.nextWork(); work !== undefined; work = this.nextWork()) await work()
    } finally {
      this.isAsking = false
    }
  }

  nextWork() {
    for (const key of this.rows.keysInSight()) {
      const { doc, page } = this.search.hits[key] ?? {}
      if (doc === undefined) return undefined
      if (page !== 0 && this.review.words.known(doc, page) === null) return () => this.review.words.read(doc, page, true)
      if ((page === 0 || this.names.isWanted) && !this.names.isKnown(doc)) return () => this.names.read(doc, true)
    }
    return undefined
  }
}
