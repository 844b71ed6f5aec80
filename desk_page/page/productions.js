// Productions: what one would be is planned and looked at; the lead or a clerk has it frozen; those that stand are listed. A volume is
// written at the machine where the matter lies, once the desk is ended: the page says how.
import { keepCapitals } from './capitals.js'
import { Refused } from './desk.js'
import { button, made } from './elements.js'
import { InTheWay, obstaclesOf } from './in_the_way.js'
import { spanOf } from './labels.js'
import { reasonOf } from './messages.js'
import { Pieces } from './pieces.js'
import { Plan } from './plan.js'
import { PlanView, counted } from './plan_view.js'
import { NotNow } from './review.js'
import { TREATMENTS } from './states.js'
import { stopWalk } from './walk.js'

const TO_READ = 600 // milliseconds in which nobody has read what is asked

const UNKNOWN = 'It isn’t known whether it is frozen: plan it again with the same words, and see whether it stands.'

// the rules that name the first of what stands in the way
const OF_DOCUMENT = ['SplitFamily', 'Unsettled']

export class Productions {
  // `parts` are those of the dialog, `pages` shows pages as they will go out
  constructor(review, parts, { pages, show, act }) {
    Object.assign(this, { review, pages, act, plan: null, asked: null }, parts)
    this.view = new PlanView({ place: this.planned, look: (place) => pages.open(place), act })
    this.obstacles = new InTheWay({ dialog: this.dialog, review, act, place: this.inTheWay, widen: (range) => this.widen(range) })
    this.itemRows = new Pieces(this.items, ({ production, item }) => this.itemRow(production, item), this.frozen)
    this.listen(show)
  }

  listen(show) {
    const on = (it, name, work) => it.addEventListener(name, this.said(work))
    on(show, 'click', () => this.open())
    on(this.form, 'submit', () => this.makePlan())
    on(this.freeze, 'click', () => this.pressFreeze())
    on(this.look, 'click', () => this.pages.open())
    this.form.addEventListener('input', () => this.forgetPlan())
    this.pages.dialog.addEventListener('ticked', () => { this.tally.textContent = `${this.pages.tally()}.` })
    this.stop.addEventListener('click', () => stopWalk())
    this.close.addEventListener('click', () => this.dialog.close())
    this.dialog.addEventListener('close', () => stopWalk())
    for (const name of ['volume', 'prefix']) keepCapitals(this.form.elements[name])
  }

  // the dialog stands before what is said on the page, so that it tells its own refusals
  said(work) {
    return this.act(async (event) => {
      event.preventDefault()
      try {
        const text = await work()
        if (typeof text === 'string') this.tell(text)
        return text
      } catch (why) {
        this.tell(`✗ ${reasonOf(why)}`)
        throw why
      }
    })
  }

  tell(text) {
    this.told.textContent = text
  }

  async open() {
    const { elements } = this.form
    this.asked = null
    this.tell('')
    if (elements.to.value === '') elements.to.value = this.review.count
    // what is asked for first, so that nothing moves under somebody's hand
    const told = await Promise.allSettled([this.showFields(), this.list()])
    this.dialog.showModal()
    const fault = told.find(({ status }) => status === 'rejected')
    if (fault !== undefined) throw fault.reason
  }

  // a box for each of the matter's fields
  async showFields() {
    const rows = await this.review.looks.values(1)
    const chosen = new Set(this.chosen())
    if (this.fields.querySelectorAll('input').length === rows.length) return
    this.fields.replaceChildren(this.fields.firstElementChild, ...rows.map(({ name }) =>
      made('label', {}, made('input', { type: 'checkbox', value: name, checked: chosen.has(name) }), ` ${name}`)))
  }

  // ---- those that stand

  async list() {
    const rows = await this.review.looks.productions()
    this.none.hidden = rows.length > 0
    this.table.hidden = rows.length === 0
    this.kept.replaceChildren(...rows.map((row) => this.keptRow(row)))
    return rows
  }

  keptRow(row) {
    const look = button('Look', { 'aria-label': `Look at the production ${row.id}` })
    look.addEventListener('click', this.said(() => this.lookAt(row.id)))
    const texts = [row.id, row.volume, spanOf(row, row), `${row.from} to ${row.to}`, row.items.toLocaleString('en')]
    return made('tr', {}, ...texts.map((text) => made('td', {}, text)), made('td', {}, look))
  }

  async lookAt(id) {
    return this.show(await this.review.desk.see(`/productions/${encodeURIComponent(id)}`))
  }

  // `how` it stands, in words
  show(production, how = '') {
    const { id, volume, items } = production
    this.frozen.hidden = false
    this.itemRows.show(items.map((item) => ({ production, item })))
    return `${id} stands${how}: ${counted(items.length, 'document')}, ${spanOf(production, production)}. To write its volume ${volume}, end the `
      + `desk, and in the matter’s folder give the command tivrenan press ${id}`
  }

  itemRow(production, item) {
    const texts = [String(item.doc), TREATMENTS[item.treatment] ?? item.treatment, spanOf(production, item)]
    return made('tr', {}, ...texts.map((text) => made('td', {}, text)))
  }

  // ---- what is asked for

  chosen() {
    return [...this.fields.querySelectorAll(':checked')].map(({ value }) => value)
  }

  request() {
    const told = (name) => this.form.elements[name].value.trim()
    if (!['width', 'from', 'to'].every((name) => /^\d{1,9}$/.test(told(name)))) {
      throw new NotNow('Digits, from and to are whole numbers.')
    }
    return {
      id: told('id'), volume: told('volume'), prefix: told('prefix'),
      // a desk reads no more than 255, and refuses that in words
      width: Math.min(Number(told('width')), 255), from: Number(told('from')), to: Number(told('to')), fields: this.chosen(),
    }
  }

  // a range that has families whole
  widen({ from, to }) {
    Object.assign(this.form.elements.from, { value: from })
    Object.assign(this.form.elements.to, { value: to })
    this.form.elements.plan.focus()
    this.forgetPlan()
    this.form.requestSubmit()
  }

  // ---- the plan

  forgetPlan() {
    Object.assign(this, { plan: null, asked: null })
    this.planned.hidden = true
    this.obstacles.hide()
  }

  async makePlan() {
    const request = this.request()
    this.forgetPlan()
    this.frozen.hidden = true
    this.itemRows.show([])
    this.tell('The desk is asked ..')
    const isKept = (await this.list()).some(({ id }) => id === request.id)
    if (isKept) return this.show(await this.review.looks.plan(request))
    this.stop.disabled = false
    try {
      const plan = await Plan.of(this.review, request, (text) => this.far(text))
      if (JSON.stringify(this.request()) !== JSON.stringify(request)) throw new NotNow('Other words were given meanwhile. Press Plan again.')
      return this.showPlan(plan)
    } catch (why) {
      if (why instanceof Refused && OF_DOCUMENT.includes(why.rule)) await this.showObstacles(request)
      throw why
    } finally {
      this.stop.disabled = true
    }
  }

  far(text) {
    this.tell(`${text} Stop stops.`)
  }

  showPlan(plan) {
    this.plan = plan
    this.view.show(plan)
    this.pages.take(plan)
    this.planned.hidden = false
    return `${plan.request.id} would be ${counted(plan.production.items.length, 'document')}, ${spanOf(plan.production, plan.production)}. `
      + 'Nothing is frozen.'
  }

  async showObstacles(request) {
    this.obstacles.show(await obstaclesOf(this.review, request, (text) => this.far(text)), request)
  }

  // ---- the freeze

  // What is frozen stays: it is asked for at the second press alone, and a double click is one press.
  async pressFreeze() {
    const { plan } = this
    const isAsked = this.asked !== null
    if (isAsked && performance.now() - this.asked < TO_READ) return null
    this.asked = isAsked ? null : performance.now()
    if (!isAsked) {
      const { from, to, id } = plan.request
      return `Freeze documents ${from} to ${to} as ${id}? It can’t be taken back. ${this.pages.tally()}. Press Freeze again.`
    }
    this.freeze.disabled = true
    this.stop.disabled = false
    try {
      return await this.make(plan)
    } finally {
      this.freeze.disabled = false
      this.stop.disabled = true
    }
  }

  // What was changed since it was planned keeps it from being frozen; what is changed in the moment before the freeze is told after it.
  async make(plan) {
    const before = await plan.changes(this.review, (text) => this.far(text))
    if (before.length > 0) {
      this.forgetPlan()
      throw new NotNow(`Nothing was frozen, as something was changed since it was planned. Plan it again. ${before.join(' ')}`)
    }
    const production = await this.review.desk.make('/productions', plan.request, UNKNOWN)
    this.forgetPlan()
    const other = await this.compare(plan, production)
    if (other.length === 0) return this.show(production, ' as it was planned')
    throw new NotNow(`It may not be as it was planned; look at its volume. ${other.join(' ')} ${this.show(production)}`)
  }

  // what isn't as it was planned, in words
  async compare(plan, production) {
    const other = plan.differences(production)
    try {
      await this.list()
      other.push(...(await plan.changes(this.review, (text) => this.far(text))))
    } catch (why) {
      other.push(`The documents weren’t compared: ${reasonOf(why)}`)
    }
    return other
  }
}
