// Who is there, and with which role. The lead takes people in: the page makes a key, shows it once, and sends its SHA-256, so
// that the desks never have the key before its owner comes with it, and nobody can read it out of the matter.
import { digestOfText } from './digest.js'
import { made } from './elements.js'
import { learnStaff } from './staff.js'

const LETTERS = 'abcdefghijkmnpqrstuvwxyz23456789' // 32, without l and o, which look like 1 and 0
const GROUPS = 5 // of five letters: 125 bits
const UNKNOWN = 'It isn’t known whether this was done: take the person in once more, under a name that tells the two apart.'

// 25 letters in groups of five
function makeKey() {
  const letters = Array.from(crypto.getRandomValues(new Uint8Array(GROUPS * 5)), (byte) => LETTERS[byte & 31])
  return Array.from({ length: GROUPS }, (_, k) => letters.slice(5 * k, 5 * k + 5).join('')).join('-')
}

export class People {
  constructor({ desk, looks }, { dialog, form, handed, newKey, show, close, act }) {
    Object.assign(this, { desk, looks, form, handed, newKey })
    this.rows = made('tbody')
    dialog.prepend(made('h2', {}, 'People'), made('table', { id: 'staff', class: 'listed' },
      made('thead', {}, made('tr', {}, ...['Number', 'Name', 'Role'].map((name) => made('th', {}, name)))), this.rows))
    // the list first, so that nothing moves under somebody's hand
    show.addEventListener('click', act(async () => {
      const fault = await this.list().then(() => null, (why) => why)
      dialog.showModal()
      if (fault !== null) this.fail(fault)
    }))
    close.addEventListener('click', () => dialog.close())
    dialog.addEventListener('close', () => this.clear())
    form.addEventListener('submit', act((event) => {
      event.preventDefault()
      return this.add()
    }))
  }

  async list() {
    const people = await this.looks.staff()
    learnStaff(people)
    this.rows.replaceChildren(...people.map(({ staff, name, role }) =>
      made('tr', {}, ...[staff, name, role].map((text) => made('td', {}, String(text))))))
  }

  // the dialog stands before what is said on the page
  fail(why) {
    this.tell(`✗ ${why.message}`)
    throw why
  }

  clear() {
    this.form.reset()
    this.tell('')
  }

  tell(text, key = '') {
    this.handed.textContent = text
    this.newKey.textContent = key
  }

  async add() {
    const { name, role } = this.form.elements
    this.tell('')
    const key = makeKey()
    try {
      const digest = await digestOfText(key)
      const { staff } = await this.desk.make('/staff', { name: name.value, role: role.value, digest }, UNKNOWN)
      this.tell(`${name.value} is staff ${staff}. Hand this key over; it is shown this once:`, key)
    } catch (why) {
      this.fail(why)
    }
    this.form.reset()
    await this.list().catch(() => {}) // the key stays shown, and the list comes when the dialog is opened again
  }
}
