// The family of the open document, beside its number: families are produced or left out whole. Its members stand one after
// another.
import { inShort, signOf } from './states.js'

export class Family {
  constructor(review, { place, act }) {
    Object.assign(this, { review, place, act })
    review.addEventListener('doc', ({ detail }) => this.draw(detail))
    review.addEventListener('row', ({ detail }) => this.redraw([detail.doc]))
    review.addEventListener('states', ({ detail }) => this.redraw(detail))
  }

  redraw(numbers) {
    const { doc, rows } = this.review
    if (doc !== null && numbers.some((number) => rows.get(number).parent === doc.parent)) this.draw(doc)
  }

  // what stands of the family
  members(doc) {
    const found = []
    for (let number = doc.parent; number <= this.review.count; number += 1) {
      const member = this.review.rows.get(number)
      if (member?.parent !== doc.parent) break
      found.push(member)
    }
    return found
  }

  draw(doc) {
    const members = this.members(doc)
    this.place.hidden = members.length < 2
    this.place.replaceChildren('Family: ', ...members.map((member) => this.member(member, doc)))
  }

  member(member, doc) {
    const button = document.createElement('button')
    button.type = 'button'
    button.textContent = `${signOf(member)} ${member.doc}`
    button.title = `${member.doc}: ${inShort(member)}`
    button.setAttribute('aria-label', `Document ${member.doc}: ${inShort(member)}`)
    button.setAttribute('aria-current', member.doc === doc.doc)
    button.addEventListener('click', this.act(() => this.review.open(member.doc)))
    return button
  }
}
