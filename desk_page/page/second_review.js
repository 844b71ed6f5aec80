// Confirm and send back, after one more look at what stands: what the dialog showed is what is confirmed, or nothing is.
import { TREATMENTS, inFull } from './states.js'
import { NotNow } from './review.js'

export class SecondReview {
  // `heldInLines` tells what is held back of a document, by name and value
  constructor(review, { dialog, summary, yes, no, confirm, back, heldInLines, act }) {
    Object.assign(this, { review, dialog, summary, yes, heldInLines, work: null })
    confirm.addEventListener('click', act(() => this.askConfirm()))
    back.addEventListener('click', act(() => this.askBack()))
    no.addEventListener('click', () => dialog.close())
    yes.addEventListener('click', act(() => {
      dialog.close()
      return this.work()
    }))
  }

  ask(title, lines, yes, work) {
    const head = document.createElement('h2')
    head.textContent = title
    head.id = 'ask_head'
    this.summary.replaceChildren(head, ...lines.map((line) => {
      const made = document.createElement('p')
      made.textContent = line
      return made
    }))
    this.yes.textContent = yes
    this.work = work
    if (!this.dialog.open) this.dialog.showModal()
    this.yes.focus()
  }

  // what is to be confirmed, for one more look
  async lines(doc) {
    const lines = [inFull(doc)]
    const boxes = doc.boxes.map(({ num, page, basis }) => `${num} on page ${page} (${basis})`)
    if (boxes.length > 0) lines.push(`Boxes: ${boxes.join(', ')}.`)
    lines.push(...(await this.heldInLines(doc)).map((line) => `Held back: ${line}`))
    if (doc.entry !== null) {
      const { date, author, recipients, description } = doc.entry
      lines.push(`Log entry: ${date}, ${author} to ${recipients}: ${description}`)
    }
    const unseen = this.unseen(doc)
    if (unseen.length > 0) lines.push(`You haven’t looked at page${unseen.length > 1 ? 's' : ''} ${unseen.join(', ')}.`)
    return lines
  }

  unseen(doc) {
    const seen = this.review.seen.get(doc.doc) ?? new Set()
    return Array.from({ length: doc.pages }, (_, k) => k + 1).filter((page) => !seen.has(page))
  }

  async askConfirm() {
    const { doc, isShown } = this.review
    if (doc === null || !isShown) throw new NotNow('The document isn’t on the screen yet. Press again.')
    const title = `Confirm document ${doc.doc}: ${TREATMENTS[doc.treatment]}?`
    const lines = await this.lines(doc)
    // another document may have been opened meanwhile
    if (this.review.doc.doc === doc.doc) this.ask(title, lines, 'Confirm', () => this.confirm(doc))
  }

  async confirm(doc) {
    if (this.review.doc.doc !== doc.doc) return null
    await this.review.edit('confirm', {}, doc)
    return `Document ${doc.doc} is confirmed.`
  }

  askBack() {
    const { doc, isShown } = this.review
    if (doc === null || !isShown) throw new NotNow('The document isn’t on the screen yet. Press again.')
    const lines = [inFull(doc), 'It will be uncalled; its boxes, held fields and log entry stay.']
    this.ask(`Send document ${doc.doc} back?`, lines, 'Send back', () => this.sendBack(doc))
  }

  async sendBack(doc) {
    if (this.review.doc.doc !== doc.doc) return null
    await this.review.edit('back', {}, doc)
    return `Document ${doc.doc} is sent back.`
  }
}
