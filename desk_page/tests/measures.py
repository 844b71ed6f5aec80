"""How long something of the page takes from the key that asks for it, told by the page's own clock, and what memory its tab has."""
import os

# From the next key on to the first frame in which something holds, once what the key starts is begun.
WATCH = """((holds) => {
  window.took = null
  addEventListener('keydown', ({ timeStamp }) => {
    const look = () => {
      if (holds()) window.took = performance.now() - timeStamp
      else requestAnimationFrame(look)
    }
    requestAnimationFrame(look)
  }, { capture: true, once: true })
})(() => %s)"""

# each next document: when it stands in the page, and when a frame shows it
NEXT = """(() => {
  window.times = []
  window.stood = []
  let start = null
  const title = document.getElementById('title'), ink = document.getElementById('ink')
  addEventListener('keydown', (event) => { start = event.timeStamp }, true)
  const shown = () => {
    if (start === null || ink.dataset.state !== 'whole') return
    const from = start
    start = null
    stood.push(performance.now() - from)
    requestAnimationFrame(() => {
      const frame = new MessageChannel()
      frame.port1.onmessage = () => times.push(performance.now() - from)
      frame.port2.postMessage(0)
    })
  }
  new MutationObserver(shown).observe(title, { childList: true })
})()"""


def is_busy():
    """Whether others have the processors, so that no time says anything."""
    return os.getloadavg()[0] > os.cpu_count()


def seconds_from_key(person, key, condition, patience=120):
    """Presses a key; gives the seconds from it to the frame in which the condition, JavaScript, holds."""
    person.js(WATCH % condition)
    person.key(key)
    person.until("window.took !== null", patience)
    return person.js("window.took") / 1000


def memory(person):
    """Resident bytes of the tab's process, in millions."""
    most = 0
    for name in filter(str.isdigit, os.listdir("/proc")):
        try:
            with open(f"/proc/{name}/cmdline", encoding="utf-8", errors="replace") as file:
                if "--type=renderer" not in (words := file.read()) or person.home not in words:
                    continue
            with open(f"/proc/{name}/statm", encoding="ascii") as file:
                most = max(most, int(file.read().split()[1]) * os.sysconf("SC_PAGE_SIZE") / 1e6)
        except OSError:
            pass
    return most
