// What comes next is fetched before it is asked for: the next page of the open document, and the two documents after it
// with their first page. It gives way to all that is pressed for, and a failure of it is said nowhere.

const DOCUMENTS = 2

export class Ahead {
  // `next` gives the document that comes so many after one, or undefined
  constructor(review, next) {
    Object.assign(this, { review, next, turn: 0 })
    review.addEventListener('page', () => this.fetch())
  }

  async fetch() {
    this.turn += 1
    const { turn } = this
    try {
      for (const work of this.works()) {
        await work()
        if (turn !== this.turn) return
      }
    } catch {
      // it is asked for again once somebody presses for it
    }
  }

  works() {
    const { doc, page } = this.review
    const works = page < doc.pages ? [() => this.read(doc.doc, page + 1)] : []
    for (let by = 1; by <= DOCUMENTS; by += 1) {
      const number = this.next(doc.doc, by)
      if (number === undefined) break
      works.push(() => this.review.docs.has(number) || this.review.lookAt(number, true), () => this.read(number, 1))
    }
    return works
  }

  async read(number, page) {
    await this.review.prepare(await this.review.pages.read(number, page, true), number, page)
  }
}
