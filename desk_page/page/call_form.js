// The form of a call: whether the document is responsive, its treatment, its designation. A new call has no answer chosen
// beforehand: each is a decision.
import { keepCapitals } from './capitals.js'
import { Changed, NotNow } from './review.js'

export class CallForm {
  constructor(review, { form, known, act }) {
    Object.assign(this, { review, form, known, act })
    this.designations = new Set()
    review.addEventListener('doc', ({ detail }) => this.show(detail))
    form.addEventListener('submit', act((event) => {
      event.preventDefault()
      return this.send()
    }))
    keepCapitals(form.elements.designation)
  }

  // what was chosen and not sent stays where the same document is told anew
  show(doc) {
    const before = this.told
    this.told = doc
    if (before?.doc !== doc.doc || !this.differs(before)) this.fill(doc)
    if (doc.designation !== '') this.knowDesignation(doc.designation)
  }

  fill(doc) {
    const { responsive, treatment, designation } = this.form.elements
    const isCalled = doc.editor !== 0
    responsive.value = isCalled ? (doc.responsive ? 'yes' : 'no') : ''
    treatment.value = isCalled ? doc.treatment : ''
    for (const choice of isCalled ? [] : [...responsive, ...treatment]) choice.checked = false
    designation.value = doc.designation
  }

  knowDesignation(text) {
    if (this.designations.has(text)) return
    this.designations.add(text)
    const option = document.createElement('option')
    option.value = text
    this.known.append(option)
  }

  isUnsent() {
    return this.told !== undefined && this.differs(this.told)
  }

  differs(doc) {
    const { responsive, treatment, designation } = this.form.elements
    if (doc.editor === 0) return responsive.value !== '' || treatment.value !== '' || designation.value !== ''
    const now = responsive.value === 'yes'
    return now !== doc.responsive || treatment.value !== doc.treatment || designation.value !== doc.designation
  }

  async send() {
    const { responsive, treatment, designation } = this.form.elements
    if (responsive.value === '') throw new NotNow('Say first whether it is responsive: Y or N.')
    if (treatment.value === '') throw new NotNow('Choose a treatment: P, R, A or W.')
    const call = {
      responsive: responsive.value === 'yes', treatment: treatment.value, designation: designation.value.trim(),
    }
    try {
      await this.review.edit('call', call)
    } catch (why) {
      // it stands otherwise than it was shown: the form shows how
      if (why instanceof Changed) this.fill(this.review.doc)
      throw why
    }
    return 'The call stands.'
  }

  // ---- keys: a call is made as soon as both answers are there

  setResponsive(value) {
    this.form.elements.responsive.value = value
    if (this.form.elements.treatment.value !== '') return this.send()
    return 'And the treatment? P, R, A or W.'
  }

  async setTreatment(value) {
    const { treatment } = this.form.elements
    const before = treatment.value
    treatment.value = value
    try {
      return await this.send()
    } catch (why) {
      // a call that is refused isn't left chosen
      if (!(why instanceof NotNow) && before !== '') treatment.value = before
      throw why
    }
  }
}
