// Which number of the staff somebody has who works at this window. No call tells it: it is read off what a call of theirs did,
// or chosen.
import { made } from './elements.js'

const AT_REVIEW = ['Reviewer', 'Second', 'Lead']

export class Me extends EventTarget {
  constructor(review, place) {
    super()
    this.place = place
    this.number = place.kept.staff ?? null
    review.addEventListener('called', ({ detail }) => this.learn(detail.at(-1).after.editor))
  }

  learn(number) {
    if (number === 0 || number === this.number) return
    this.number = number
    this.place.keep({ staff: number })
    this.dispatchEvent(new CustomEvent('change'))
  }
}

// The choice, which stands where it is wanted.
export class MyName {
  constructor(me, looks, { at, behind }) {
    Object.assign(this, { me, looks, behind })
    this.choice = made('select', { id: 'my_name' })
    this.label = made('label', { hidden: true }, 'I am ', this.choice)
    at.after(this.label)
    this.choice.addEventListener('change', () => me.learn(Number(this.choice.value)))
    me.addEventListener('change', () => { this.choice.value = me.number })
  }

  show(isWanted) {
    this.label.hidden = !isWanted
    if (isWanted && this.choice.childElementCount === 0) this.behind(() => this.fill())()
  }

  async fill() {
    const staff = (await this.looks.staff()).filter(({ role }) => AT_REVIEW.includes(role))
    const nobody = made('option', { value: '', disabled: true }, 'who?')
    this.choice.replaceChildren(nobody, ...staff.map(({ staff: number, name }) => made('option', { value: number }, `${name} (${number})`)))
    this.choice.value = this.me.number ?? ''
  }
}
