// What the open document is called, at its head: its name, date and author, as the list has them.
import { PARTS } from './names.js'
import { piece } from './rows.js'

export class DocName {
  constructor(review, names, { place, behind }) {
    Object.assign(this, { review, names, place })
    review.addEventListener('doc', behind(({ detail }) => this.read(detail.doc)))
    for (const kind of ['told', 'chosen']) names.addEventListener(kind, () => this.show())
  }

  // the same values stand at the held fields, so that no call comes of this
  async read(number) {
    this.show()
    if (!this.names.isKnown(number)) await this.names.read(number, true)
  }

  show() {
    const { review, names, place } = this
    const texts = review.doc === null ? [] : PARTS.map((part) => names.of(review.doc.doc, part)).filter((text) => text !== '')
    place.hidden = texts.length === 0
    // a date stays on one line
    place.replaceChildren(...texts.flatMap((text, k) => [...(k === 0 ? [] : [' · ']), piece('part', text)]))
  }
}
