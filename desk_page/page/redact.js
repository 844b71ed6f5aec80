// Redact by term: the hits of phrases as proposed boxes, taken or left one by one, a page or all at once, and then put.
import { BoxRun, MOST_BOXES, isRedact } from './box_run.js'
import { NoAnswer } from './desk.js'
import { button, made } from './elements.js'
import { grouped } from './grouped.js'
import { say } from './messages.js'
import { openButton } from './open_button.js'
import { phrasesIn } from './phrases.js'
import { Proposals } from './proposals.js'
import { ProposedList } from './proposed_list.js'
import { NotNow } from './review.js'
import { BASES } from './states.js'
import { walk, stopWalk } from './walk.js'

const MOST_ROWS = 100 // of hits in fields that are shown

const counted = (count, one, many) => `${count.toLocaleString('en')} ${count === 1 ? one : many}`
const boxesOf = (count) => counted(count, 'box', 'boxes')
const documentsOf = (count) => counted(count, 'document', 'documents')

export class Redact {
  // The panel stands behind the element `beside`, and the button that opens it among `doors`; `searched` tells what was
  // searched for in this window.
  constructor(review, boxes, paper, { beside, doors, searched, act }) {
    Object.assign(this, { review, boxes, searched, act, asked: null, isUndoing: false, suggested: '', suggestedBasis: '' })
    this.proposals = new Proposals(review)
    this.run = new BoxRun(review)
    this.build(beside)
    const door = button('Redact ', { 'aria-label': 'Redact by term' })
    door.append(made('kbd', {}, 'Q'))
    doors.insertBefore(door, doors.lastElementChild)
    door.addEventListener('click', act(() => this.open()))
    this.list = new ProposedList(review, this.proposals, boxes, paper, { place: this.proposed, act })
    for (const name of ['change', 'taken']) this.proposals.addEventListener(name, () => this.tell())
    this.proposals.addEventListener('change', () => this.showValues())
    this.basis.addEventListener('change', () => this.tell())
    this.tell()
  }

  // ---- what it is made of

  build(beside) {
    const on = (element, name, work) => element.addEventListener(name, this.act(work))
    this.phrases = made('input', { name: 'phrases', autocomplete: 'off', spellcheck: 'false',
      title: '# is a digit; * at the front or end of a word stands for anything' })
    this.scope = made('select', { name: 'scope' },
      made('option', { value: 'one' }, 'this document'), made('option', { value: 'all' }, 'all documents'))
    this.basis = made('select', { name: 'basis' },
      ...Object.entries(BASES).map(([basis, meaning]) => made('option', { value: basis }, `${basis}, ${meaning}`)))
    this.proposed = made('div', { class: 'proposed_list' })
    this.putButton = button('Put')
    this.stop = button('Stop', { disabled: true })
    this.undo = button('Undo', { disabled: true, 'aria-label': 'Undo: drop what was put last' })
    this.close = button('Close', { 'aria-label': 'Close Redact by term' })
    this.refused = made('ul', { id: 'redact_refused', 'aria-label': 'Not done' })
    this.values = made('ul', { id: 'redact_values', 'aria-label': 'Hits in fields' })
    this.below = made('div', {}, made('label', {}, 'Basis of all ', this.basis), this.proposed,
      made('p', {}, this.putButton, ' ', this.stop, ' ', this.undo), this.values)
    this.form = made('form', { id: 'redact', hidden: true, 'aria-label': 'Redact by term' },
      made('h3', {}, 'Redact by term ', made('kbd', {}, 'Q'), ' ', this.close),
      made('label', {}, 'Phrases, with ; between them ', this.phrases),
      made('p', {}, made('label', {}, 'in ', this.scope), ' ', made('button', {}, 'Propose')),
      this.below, this.refused)
    beside.after(this.form)
    on(this.form, 'submit', (event) => {
      event.preventDefault()
      return this.propose()
    })
    on(this.putButton, 'click', () => this.submit())
    on(this.undo, 'click', () => this.takeBack())
    this.stop.addEventListener('click', () => stopWalk())
    on(this.close, 'click', () => this.leave())
  }

  open() {
    if (!this.form.contains(document.activeElement)) this.before = document.activeElement
    this.form.hidden = false
    this.suggest(this.searched())
    this.suggestBasis(this.boxes.basis.value)
    this.phrases.focus()
    this.phrases.select()
    this.form.scrollIntoView({ block: 'nearest' })
  }

  isOpen() {
    return !this.form.hidden
  }

  // what somebody looked for elsewhere stands ready, once
  suggest(text) {
    if (text === '' || text === this.suggested || this.proposals.all.length > 0) return
    this.suggested = text
    this.phrases.value = text
  }

  // The basis of single boxes, where it was changed since; else the one that was used here stays.
  suggestBasis(basis) {
    if (basis === this.suggestedBasis || this.proposals.all.length > 0) return
    this.suggestedBasis = basis
    this.basis.value = basis
  }

  leave() {
    stopWalk()
    this.form.hidden = true
    this.refused.replaceChildren()
    this.proposals.forget()
    this.before.focus() // where somebody was
    return 'No box is proposed any more.'
  }

  // ---- what is told

  tell() {
    this.asked = null
    this.isUndoing = false
    const { all, covered } = this.proposals
    const taken = this.proposals.taken().length
    const isNothing = all.length + covered + this.proposals.values.length === 0 && this.run.made.length === 0
    this.below.hidden = isNothing && this.stop.disabled // what is under way can be stopped
    this.putButton.textContent = `Put ${boxesOf(taken)}`
    this.putButton.disabled = taken === 0
    this.undo.disabled = this.run.made.length === 0
  }

  // Hits in fields can't be boxed.
  showValues() {
    const byField = grouped(this.proposals.values, ({ doc, field, phrase }) => `${doc} ${field} ${phrase.text}`)
    const rows = [...byField.values()].slice(0, MOST_ROWS).map((own) => {
      const { doc, field, phrase } = own[0]
      const text = made('span', {}, ` “${phrase.text}”${own.length > 1 ? `, ${own.length} times,` : ''} in field ${field}`)
      this.nameField(doc, field, text)
      return made('li', {}, openButton({ ...this, dialog: null }, doc), text)
    })
    const rest = byField.size - rows.length
    const more = rest > 0 ? [made('li', {}, `and ${rest.toLocaleString('en')} more`)] : []
    const head = made('li', {}, 'A box can’t cover what stands in a field. Hold it back there (H):')
    this.values.replaceChildren(...(rows.length === 0 ? [] : [head, ...rows, ...more]))
  }

  async nameField(doc, field, text) {
    const values = await this.review.looks.values(doc, true).catch(() => [])
    const told = values.find((it) => it.field === field)
    if (told !== undefined) text.append(`, ${told.name}${told.held === null ? '' : `, held back for ${told.held}`}`)
  }

  // ---- what is done

  async propose() {
    const phrases = phrasesIn(this.phrases.value)
    this.refused.replaceChildren()
    const number = this.review.doc.doc
    const range = this.scope.value === 'one' ? { from: number, to: number } : { from: 1, to: this.review.count }
    const isWhole = await this.walking(() => this.proposals.propose(phrases, range, say))
    if (!isWhole) return 'Stopped: nothing is proposed.'
    const { all, covered, values } = this.proposals
    const docs = this.proposals.byDocument().size
    return `${boxesOf(all.length)} proposed in ${documentsOf(docs)}`
      + (covered === 0 ? '.' : `; ${counted(covered, 'hit is', 'hits are')} covered already.`)
      + (values.length === 0 ? '' : ` ${counted(values.length, 'hit stands', 'hits stand')} in a field: hold it back there.`)
  }

  async walking(work) {
    this.stop.disabled = false
    this.tell()
    try {
      return await work()
    } finally {
      this.stop.disabled = true
      this.tell()
    }
  }

  // What would be put is told first, with the documents in which nothing can be; it is put at the second press.
  async submit() {
    const words = JSON.stringify([this.basis.value, this.proposals.taken().map(({ num }) => num)])
    if (this.asked?.words === words) return this.put(this.asked.shown)
    const docs = [...this.proposals.byDocument(this.proposals.taken()).keys()]
    const shown = new Map()
    const { done } = await this.walking(() => walk(docs.length, async (k) => {
      shown.set(docs[k], await this.review.lookAt(docs[k], true))
    }, (k) => say(`Looked at ${k.toLocaleString('en')} of ${documentsOf(docs.length)}. Escape stops.`)))
    if (done < docs.length) return 'Stopped: nothing was put.'
    this.proposals.drop([...shown.values()])
    if (this.proposals.taken().length === 0) return 'Boxes cover all of it by now.'
    this.asked = { words: JSON.stringify([this.basis.value, this.proposals.taken().map(({ num }) => num)]), shown }
    return this.question(shown)
  }

  question(shown) {
    const boxes = this.proposals.byDocument(this.proposals.taken())
    const those = (holds) => [...boxes.keys()].filter((doc) => holds(shown.get(doc)))
    const others = those((doc) => !isRedact(doc))
    const confirmed = those((doc) => doc.confirmer !== 0 && !others.includes(doc.doc))
    const full = those((doc) => doc.boxes.length + boxes.get(doc.doc).length > MOST_BOXES && !others.includes(doc.doc))
    const open = [...boxes].filter(([doc]) => !others.includes(doc))
    const count = open.reduce((sum, [, own]) => sum + own.length, 0)
    const rest = others.length === 0 ? '' : `Not called Redact, so that no box goes into them: ${others.join(', ')}. `
    if (count === 0) {
      this.asked = null
      throw new NotNow(`${rest}Call them Redact first (R, or X for many).`)
    }
    return `Put ${boxesOf(count)} for ${this.basis.value} in ${documentsOf(open.length)}? ${rest}`
      + (confirmed.length === 0 ? '' : `A confirmation would be undone: ${confirmed.join(', ')}. `)
      + (full.length === 0 ? ''
        : `More than ${MOST_BOXES.toLocaleString('en')} boxes, the last of which can’t be put: ${full.join(', ')}. `)
      + 'Press Put again.'
  }

  async put(shown) {
    this.asked = null
    const boxes = this.proposals.taken()
    const refused = new Refusals(this)
    const { done, made: put, isStopped, stands } = await this.walking(() => this.run.put(boxes, this.basis.value, shown, {
      far: (k) => say(`Put ${k.toLocaleString('en')} of ${boxesOf(boxes.length)}. Escape stops.`),
      refused: (box, why) => refused.add(box, why),
    }))
    this.proposals.drop(stands)
    this.tell()
    await this.lookOnce()
    return `${isStopped ? 'Stopped. ' : ''}${boxesOf(put)} put, ${refused.count.toLocaleString('en')} refused`
      + `${done < boxes.length ? `, ${(boxes.length - done).toLocaleString('en')} not tried` : ''}.`
      + (put === 0 ? '' : ' Undo drops them.')
  }

  async takeBack() {
    const boxes = this.run.made
    if (!this.isUndoing) {
      this.isUndoing = true
      return `Drop the ${boxesOf(boxes.length)} that were put in ${documentsOf(this.proposals.byDocument(boxes).size)}? Press Undo again.`
    }
    const kept = new Refusals(this)
    const { done, dropped } = await this.walking(() => this.run.undo({
      far: (k) => say(`Dropped ${k.toLocaleString('en')} of ${boxesOf(boxes.length)}. Escape stops.`),
      kept: (box, why) => kept.add(box, why),
    }))
    this.tell()
    await this.lookOnce()
    const rest = boxes.length - done
    const text = `${boxesOf(dropped)} of ${boxes.length.toLocaleString('en')} dropped`
    if (kept.count === 0 && rest === 0) return `${text}.`
    throw new NotNow(`${text}, ${kept.count.toLocaleString('en')} not${rest === 0 ? '' : `, ${rest.toLocaleString('en')} not tried`}.`)
  }

  // the open document, where a desk answers
  lookOnce() {
    return this.review.look().catch((why) => { if (!(why instanceof NoAnswer)) throw why })
  }
}

// What was refused: a row for each page and reason, with a button that opens it.
class Refusals {
  constructor(panel) {
    Object.assign(this, { panel, count: 0, rows: new Map() })
    panel.refused.replaceChildren()
  }

  add({ doc, page }, why) {
    this.count += 1
    const name = `${doc} ${page} ${why}`
    const row = this.rows.get(name) ?? this.row(doc, page)
    this.rows.set(name, row)
    row.count += 1
    row.text.textContent = ` ${boxesOf(row.count)}: ${why}`
  }

  row(doc, page) {
    const text = made('span')
    this.panel.refused.append(made('li', {}, openButton({ ...this.panel, dialog: null }, doc, page), text))
    return { text, count: 0 }
  }
}
