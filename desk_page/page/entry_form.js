// The document's entry in the privilege log.

const PARTS = ['date', 'author', 'recipients', 'description']

export class EntryForm {
  constructor(review, { form, act }) {
    Object.assign(this, { review, form })
    review.addEventListener('doc', ({ detail }) => this.show(detail))
    form.addEventListener('submit', act((event) => {
      event.preventDefault()
      return this.send()
    }))
    // in the description Enter is a new line
    form.elements.description.addEventListener('keydown', (event) => {
      if (event.key === 'Enter' && event.ctrlKey) form.requestSubmit()
    })
  }

  // what was typed and not sent stays where the same document is told anew
  show(doc) {
    const before = this.told
    this.told = doc
    if (before?.doc === doc.doc && this.differs(before)) return
    for (const part of PARTS) this.form.elements[part].value = doc.entry?.[part] ?? ''
  }

  // a text without blanks around it, and a newline that was pasted as a blank: the log has one line for each document
  text(part) {
    return this.form.elements[part].value.replace(/\s+/g, ' ').trim()
  }

  isUnsent() {
    return this.told !== undefined && this.differs(this.told)
  }

  differs(doc) {
    return PARTS.some((part) => this.text(part) !== (doc.entry?.[part] ?? '').replace(/\s+/g, ' ').trim())
  }

  async send() {
    await this.review.edit('entry', Object.fromEntries(PARTS.map((part) => [part, this.text(part)])))
    return 'The log entry stands.'
  }
}
