// The dialog in which productions are planned, frozen and looked at.
import { button, made } from './elements.js'

const text = (name, label, attributes) =>
  made('label', {}, `${label} `, made('input', { name, autocomplete: 'off', spellcheck: 'false', required: true, ...attributes }))

const NAMES = 'Letters, digits, - and _'
const CAPITALS = 'A to Z, 0 to 9, - and _'

function makeForm() {
  const fields = made('fieldset', { id: 'chosen_fields' }, made('legend', {}, 'Fields whose values go into the load file'))
  const form = made('form', { id: 'freeze' },
    text('id', 'ID', { maxlength: 32, title: NAMES }),
    text('volume', 'Volume', { maxlength: 32, title: CAPITALS }),
    text('prefix', 'Prefix of the numbers', { maxlength: 12, title: `${CAPITALS}; no digit at its end` }),
    text('width', 'Digits', { inputmode: 'numeric', size: 3, value: '8', title: '4 to 10' }),
    text('from', 'From document', { inputmode: 'numeric', size: 6, value: '1' }),
    text('to', 'To document', { inputmode: 'numeric', size: 6 }),
    fields, made('button', { name: 'plan' }, 'Plan'))
  return { form, fields }
}

function makeKept() {
  const kept = made('tbody')
  const items = made('tbody')
  const columns = (...names) => made('thead', {}, made('tr', {}, ...names.map((name) => made('th', {}, name))))
  const frozen = made('table', { id: 'items', class: 'listed', hidden: true }, columns('Document', 'Treatment', 'Labels'), items)
  const table = made('table', { id: 'kept', class: 'listed' }, columns('ID', 'Volume', 'Labels', 'Range', 'Documents', ''), kept)
  return { kept, table, frozen, items, none: made('p', { id: 'none_kept' }, 'None stands yet.') }
}

// its parts by name; the dialog stands in the page once it is made
export function makeProductionsDialog() {
  const { form, fields } = makeForm()
  const { kept, table, frozen, items, none } = makeKept()
  const parts = {
    form, fields, kept, table, frozen, items, none,
    told: made('p', { id: 'frozen', role: 'status' }),
    stop: button('Stop', { id: 'stop_planning', disabled: true }),
    inTheWay: made('section', { id: 'in_the_way', hidden: true }),
    planned: made('section', { id: 'planned', hidden: true }),
    look: button('Look at the pages as they will go out', { id: 'look_at_pages' }),
    tally: made('span', { id: 'tally' }),
    freeze: button('Freeze', { id: 'freeze_it' }),
    close: button('Close', { id: 'close_productions' }),
  }
  form.append(parts.stop)
  parts.planned.append(made('p', { class: 'bar' }, parts.look, parts.tally, parts.freeze))
  parts.dialog = made('dialog', { id: 'productions', 'aria-label': 'Production' }, made('h2', {}, 'Production'),
    made('p', {}, 'A plan shows what would go out, and changes nothing. By Freeze, which the lead or a clerk may, what is decided is frozen as it '
      + 'stands, and each page gets its number: that can’t be taken back. No volume is written here, but at the machine where the matter lies.'),
    form, parts.told, parts.inTheWay, parts.planned,
    made('h3', {}, 'Productions that stand'), none, table, frozen, made('p', {}, parts.close))
  document.body.append(parts.dialog)
  return parts
}
