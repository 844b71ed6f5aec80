// The last call of this window taken back: each document is called as it was before, where it stands as that call left it.
import { changeInWords, isAlike } from './changes.js'
import { reasonOf, say } from './messages.js'
import { Changed, NotNow } from './review.js'
import { inFull } from './states.js'
import { walk } from './walk.js'

export class LastCall {
  constructor(review) {
    Object.assign(this, { review, last: [], isWarned: false })
    review.addEventListener('called', ({ detail }) => this.keep(detail))
  }

  keep(last) {
    Object.assign(this, { last, isWarned: false })
  }

  async takeBack() {
    const { last } = this
    if (last.length === 0) throw new NotNow('This window made no call that could be taken back.')
    if (last.length > 1 && !this.isWarned) {
      this.isWarned = true
      const span = `${last[0].after.doc} to ${last.at(-1).after.doc}`
      return `Take back the calls of ${last.length.toLocaleString('en')} documents (${span})? Press Z again.`
    }
    this.keep([])
    const failed = []
    const { done } = await walk(last.length, async (k) => {
      await this.takeBackOne(last[k]).catch((why) => failed.push(`document ${last[k].after.doc}: ${reasonOf(why)}`))
    }, (k) => say(`Took back ${k.toLocaleString('en')} of ${last.length.toLocaleString('en')} calls. Escape stops.`))
    await this.review.look()
    const told = done === 1 && failed.length === 0
      ? `The call of document ${last[0].after.doc} is taken back. ${inFull(this.review.rows.get(last[0].after.doc))}`
      : `${done - failed.length} of ${last.length} calls are taken back. ${failed.join(' ')}`
    if (failed.length > 0) throw new NotNow(told)
    return last.some(({ before }) => before.confirmer !== 0) ? `${told} A confirmation that it had before stays undone.` : told
  }

  async takeBackOne({ before, after }) {
    const { doc, responsive, treatment, designation } = before
    const now = await this.review.lookAt(doc)
    if (!isAlike(after, now)) throw new Changed(changeInWords(after, now))
    if (before.editor === 0) await this.uncall(doc)
    else await this.review.make(doc, 'call', { responsive, treatment, designation })
    await this.review.lookAfter(doc)
  }

  // a document that wasn't called before can be sent back alone, which takes a second person
  async uncall(doc) {
    try {
      await this.review.make(doc, 'back', {})
    } catch (why) {
      if (why.rule !== 'RoleRefused') throw why
      throw new NotNow('It wasn’t called before, and only a second person or the lead can have it uncalled (Send back). '
        + 'Call it otherwise, or have it sent back.')
    }
  }
}
