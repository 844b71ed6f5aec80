// One call for many documents: a family, or those that were marked. Each is looked at once more and called by a call of its own;
// what was refused is listed.
import { keepCapitals } from './capitals.js'
import { changeInWords, isAlike } from './changes.js'
import { NoAnswer } from './desk.js'
import { reasonOf } from './messages.js'
import { openButton } from './open_button.js'
import { Changed, NotNow } from './review.js'
import { stopWalk, walk } from './walk.js'

const counted = (numbers) => (numbers.length === 1 ? '1 document' : `${numbers.length.toLocaleString('en')} documents`)

export class Many {
  constructor(review, { dialog, form, family, marked, told, refused, stop, close, act }) {
    Object.assign(this, { review, dialog, form, family, marked, told, refused, stop, act, asked: null })
    stop.addEventListener('click', () => stopWalk())
    close.addEventListener('click', () => dialog.close())
    dialog.addEventListener('close', () => stopWalk())
    form.addEventListener('change', () => { this.asked = null })
    form.addEventListener('submit', this.saidHere(() => this.submit()))
    keepCapitals(form.elements.designation)
  }

  // the dialog stands before what is said on the page, so that it tells its own refusals
  saidHere(work) {
    return this.act(async (event) => {
      event?.preventDefault()
      try {
        const text = await work()
        if (typeof text === 'string') this.told.textContent = text
        return text
      } catch (why) {
        this.told.textContent = `✗ ${reasonOf(why)}`
        throw why
      }
    })
  }

  toggleMark() {
    const { marked, doc } = this.review
    if (!marked.delete(doc.doc)) marked.add(doc.doc)
    this.review.tell('marked', doc.doc)
    if (!marked.has(doc.doc)) return `Document ${doc.doc} isn’t marked.`
    return `Document ${doc.doc} is marked; X calls all that are (${marked.size}).`
  }

  async open() {
    const { doc, marked } = this.review
    this.asked = null
    this.told.textContent = ''
    this.refused.replaceChildren()
    this.form.reset()
    this.form.elements.which.value = marked.size > 0 ? 'marked' : 'family'
    this.marked.textContent = `those marked (${marked.size})`
    this.family.textContent = `the family of document ${doc.doc}`
    this.stop.disabled = true
    this.dialog.showModal()
    this.form.querySelector('[name=which]:checked').focus() // a browser takes the first
    const members = await this.familyOf(doc, () => this.dialog.open)
    if (members.length >= 25) this.told.textContent = ''
    this.family.textContent = `the family of document ${doc.doc} (${counted(members)})`
  }

  // the numbers of a family, which stand one after another
  async familyOf(doc, goesOn = () => true) {
    const found = []
    for (let number = doc.parent; number <= this.review.count && goesOn(); number += 1) {
      if (found.length > 0 && found.length % 25 === 0) this.told.textContent = `The family has ${counted(found)} and more.`
      const member = this.review.rows.get(number) ?? (await this.review.lookAt(number, true))
      if (member.parent !== doc.parent) break
      found.push(number)
    }
    return found
  }

  async chosen() {
    if (this.form.elements.which.value === 'family') return this.familyOf(this.review.doc)
    return [...this.review.marked].sort((a, b) => a - b)
  }

  call() {
    const { responsive, treatment, designation } = this.form.elements
    if (responsive.value === '') throw new NotNow('Say first whether they are responsive.')
    if (treatment.value === '') throw new NotNow('Choose a treatment.')
    return { responsive: responsive.value === 'yes', treatment: treatment.value, designation: designation.value.trim() }
  }

  // What would be called is shown first; the calls are made at the second press.
  async submit() {
    const call = this.call()
    const numbers = await this.chosen()
    if (numbers.length === 0) throw new NotNow('No document is marked: M marks the open one.')
    const words = JSON.stringify([call, numbers])
    if (this.asked?.words === words) return this.make(this.asked.shown, call)
    this.stop.disabled = false
    const shown = []
    const look = async (k) => { shown.push(await this.review.lookAt(numbers[k])) }
    await walk(numbers.length, look, (k) => this.far('Looked at', k, numbers)).finally(() => { this.stop.disabled = true })
    if (shown.length < numbers.length) return 'Stopped: nothing was called.'
    this.asked = { words, shown }
    const called = shown.filter((doc) => doc.editor !== 0).map(({ doc }) => doc)
    const confirmed = shown.filter((doc) => doc.confirmer !== 0).map(({ doc }) => doc)
    return `Call ${counted(numbers)}: ${numbers.join(', ')}? `
      + (called.length === 0 ? '' : `Called before: ${called.join(', ')}. `)
      + (confirmed.length === 0 ? '' : `A confirmation would be undone: ${confirmed.join(', ')}. `)
      + 'Press Call them again.'
  }

  far(what, k, all) {
    this.told.textContent = `${what} ${k.toLocaleString('en')} of ${counted(all)}. Escape or Stop stops.`
  }

  async make(shown, call) {
    this.asked = null
    this.stop.disabled = false
    const made = []
    const failed = []
    const { done, isStopped } = await walk(shown.length, async (k) => {
      try {
        made.push(await this.callOne(shown[k], call))
      } catch (why) {
        failed.push(this.refusal(shown[k].doc, why))
        this.refused.replaceChildren(...failed)
        return !(why instanceof NoAnswer)
      }
      return true
    }, (k) => this.far('Called', k, shown))
    this.stop.disabled = true
    if (made.length > 0) this.review.tell('called', made)
    for (const { after } of made) if (this.review.marked.delete(after.doc)) this.review.tell('marked', after.doc)
    await this.review.look()
    const left = shown.length - done
    return `${isStopped ? 'Stopped. ' : ''}${counted(made)} called, ${failed.length} refused`
      + `${left === 0 ? '' : `, ${left} not tried`}.${made.length === 0 ? '' : ' Z takes these calls back.'}`
  }

  async callOne(shown, call) {
    const before = await this.review.lookAt(shown.doc)
    if (!isAlike(shown, before)) throw new Changed(changeInWords(shown, before))
    await this.review.make(shown.doc, 'call', call)
    return { before, after: await this.review.lookAfter(shown.doc) }
  }

  refusal(number, why) {
    const row = document.createElement('li')
    row.append(openButton(this, number), ` ${reasonOf(why)}`)
    return row
  }
}
