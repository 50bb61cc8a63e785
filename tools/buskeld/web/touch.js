
// ---- with a program behind the page: what is done on the last frame goes to it, and what changes comes back

const SLACK = 4, HELD = 500, PORTION = 80
const frame = by("frame")
let generation = told.generation, revision = told.revision, queue = Promise.resolve(), waiting = 0
let press = null, wheel = null, isRunning = false, isSliding = false

/** Says something in the page's head. */
function say(text) {
  if (by("said").textContent !== text) by("said").textContent = text
}

/** Whether the moment that is shown is the last one. */
const isLast = () => now === moments.length - 1

/** Whether what is shown answers. */
const answers = () => told.isOpen && isLast() && !!moments[now].picture

/** Asks the server for something, and gives its answer as data. */
async function ask(path, body) {
  const how = body === undefined ? {} : { method: "POST", headers: { "Content-Type": "application/json" }, body: JSON.stringify(body) }
  const answer = await fetch(path, how)
  if (!answer.ok) throw new Error((await answer.text()).trim())
  return answer.json()
}

/** Takes what changed. The last frame stays in view, where it was there, and after a reload. */
function take(data) {
  if (data.revision === undefined || data.revision <= revision) return
  const isNew = data.generation !== generation, wasLast = isLast() || !moments.length
  if (!isNew && data.first > moments.length) return
  moments = [...moments.slice(0, data.first), ...data.moments]
  const number = now
  for (const [name, value] of Object.entries(data)) if (name !== "moments") told[name] = value
  generation = data.generation
  revision = data.revision
  say(isNew ? `${data.said} (${new Date().toLocaleTimeString()})` : data.said)
  go(wasLast ? moments.length - 1 : number)
}

/** Does things, one after another; `isMore` where they belong to what was done before. */
function act(acts, isMore = false) {
  waiting += 1
  queue = queue.then(async () => {
    try {
      take(await ask("do", { acts, more: isMore, generation, have: moments.length }))
    } catch (fault) {
      say(`Not done: ${fault.message}`)
    } finally {
      waiting -= 1
    }
  })
  return queue
}

const line = text => ({ do: "line", text })

/** A frame after what was done, where that is wanted. */
const thenFrame = () => by("each").checked ? [{ do: "frame" }] : []

/** Waits for changes that come from elsewhere: the file was saved. */
async function follow() {
  let isGone = false
  for (;;) {
    try {
      const data = await ask(`changes?since=${revision}&generation=${generation}&have=${moments.length}`)
      if (isGone) say("The program is held again.")
      isGone = false
      take(data)
    } catch {
      isGone = true
      say("bin/watch has ended: the page shows what it had.")
      await new Promise(done => setTimeout(done, 1500))
    }
  }
}

// ---- the pointer

frame.addEventListener("pointerdown", event => {
  if (!answers() || event.button) return
  const at = pointOf(event)
  frame.focus({ preventScroll: true })
  frame.setPointerCapture(event.pointerId)
  press = { at, x: event.clientX, y: event.clientY, kind: "tap", timer: setTimeout(hold, HELD) }
  event.preventDefault()
})

/** The pointer was held at one place: a long press. */
function hold() {
  press.kind = "long"
  act([{ do: "down", x: press.at[0], y: press.at[1] }, { do: "hold" }, ...thenFrame()])
}

frame.addEventListener("pointermove", event => {
  if (!press) return
  if (press.kind === "tap" && Math.hypot(event.clientX - press.x, event.clientY - press.y) > SLACK) {
    clearTimeout(press.timer)
    press.kind = "drag"
    act([{ do: "down", x: press.at[0], y: press.at[1] }])
  }
  if (press.kind !== "tap") moveTo(pointOf(event))
})

/** Moves the pointer that is down; while something is under way only the last of several points counts. */
function moveTo([x, y]) {
  const isUnderWay = !!press.to
  press.to = [x, y]
  if (isUnderWay) return
  const mine = press
  queue.then(() => new Promise(done => setTimeout(done, PORTION))).then(() => flush(mine))
}

/** Does the last move. */
function flush(one) {
  if (!one.to || one.isOver) return
  const [x, y] = one.to
  one.to = null
  act([{ do: "move", x, y }, ...thenFrame()], true)
}

/** The pointer goes up, or is cancelled. */
function release(word) {
  if (!press) return
  const one = press
  press = null
  clearTimeout(one.timer)
  if (one.kind === "tap") {
    if (word === "up") act([{ do: "tap", x: one.at[0], y: one.at[1] }, ...thenFrame()])
    return
  }
  const last = one.to ? [{ do: "move", x: one.to[0], y: one.to[1] }] : []
  one.isOver = true
  act([...last, { do: word }, ...thenFrame()], true)
}

frame.addEventListener("pointerup", event => {
  if (press && press.kind === "drag") press.to = pointOf(event)
  release("up")
})
frame.addEventListener("pointercancel", () => release("cancel"))

frame.addEventListener("wheel", event => {
  if (!answers() || event.ctrlKey || !(moments[now].states || []).some(it => it.name === "Viewport")) return
  event.preventDefault()
  const [x, y] = pointOf(event), step = [1, 16, 400][event.deltaMode]
  const pixel = moments[now].view[0] / frame.clientWidth
  const by = Math.abs(event.deltaX) > Math.abs(event.deltaY) ? event.deltaX : event.deltaY
  if (wheel) {
    wheel.by += by * step * pixel
    return
  }
  wheel = { x, y, by: by * step * pixel }
  queue.then(() => new Promise(done => setTimeout(done, PORTION))).then(() => {
    act([{ do: "scroll", x, y, by: Math.round(wheel.by) }, ...thenFrame()])
    wheel = null
  })
}, { passive: false })

/** Says which nodes are hit at the point under the pointer, when the program isn't busy. */
let asked = 0
frame.addEventListener("pointermove", event => {
  const at = pointOf(event), mine = ++asked
  if (!at || press || !answers()) return
  setTimeout(async () => {
    if (mine !== asked || waiting || press) return
    try {
      const { hits } = await ask(`at?x=${at[0]}&y=${at[1]}`)
      if (mine === asked) by("point").textContent += `; hit ${hits.map(it => `#${it}`).join(" ") || "none"}`
    } catch { /* The next answer says what is wrong. */ }
  }, PORTION)
})
frame.addEventListener("pointerleave", () => { asked += 1 })

// ---- the keyboard, on the picture

frame.addEventListener("keydown", event => {
  if (!answers() || event.ctrlKey || event.metaKey || event.altKey || event.isComposing) return
  const acts = keyActs(event.key)
  if (event.key === "Escape") frame.blur()
  if (!acts.length) return
  event.preventDefault()
  act(acts)
})

/** What a key does on the picture. */
function keyActs(key) {
  if (key === "ArrowRight" || key === "ArrowDown") return [line("focus next")]
  if (key === "ArrowLeft" || key === "ArrowUp") return [line("focus prev")]
  const field = by("field").value
  if (key === "Enter" || key === " " && !field) return [line("press"), ...thenFrame()]
  if (!field || [...key].length > 1 && key !== "Backspace") return []
  const [node, name] = field.split(".")
  return [{ do: "type", node: Number(node), field: name, key }, ...thenFrame()]
}

// ---- what can be done beside the picture

more.node = node => !isLast() || !told.isOpen ? [] : node.marks.filter(it => it !== "button").map(word => {
  const button = made("button", { type: "button", "aria-label": `${word} #${node.node}`, "data-key": `${word} ${node.node}` }, word)
  button.onclick = () => act([line(`act #${node.node} ${word}`), ...thenFrame()])
  return button
})

more.field = (state, field, value) => {
  if (!isLast() || !told.isOpen) return made("code", {}, value)
  const names = { type: "text", "aria-label": `${field} of #${state.node} ${state.name}`, "data-key": `field ${state.node} ${field}` }
  const input = made("input", { ...names, defaultValue: value, spellcheck: false, autocomplete: "off" })
  input.onchange = () => {
    const wanted = input.value
    input.defaultValue = wanted
    const by = Math.round(Number(wanted)) - Number(value)
    const text = state.name === "Viewport" ? `scroll #${state.node} ${by}` : `set #${state.node} ${field} ${wanted}`
    act([line(text), ...thenFrame()])
  }
  return input
}

more.shown = () => {
  const isAlive = answers()
  frame.classList.toggle("touch", isAlive)
  frame.tabIndex = isAlive ? 0 : -1
  for (const [name, value] of [["role", "application"], ["aria-label", "The last frame"], ["aria-describedby", "help"]]) {
    if (isAlive) frame.setAttribute(name, value)
    else frame.removeAttribute(name)
  }
  by("help").hidden = !isAlive
  by("past").hidden = isLast()
  by("undo").disabled = !told.canUndo
  by("again").disabled = !told.canUndo
  for (const it of by("lines-form").elements) it.disabled = !told.isOpen
  showTime()
  showFields()
  showScript()
  if (told.ended !== null && told.ended !== undefined) say(`The run has ended with status ${told.ended}: undo the last action, or change the program.`)
}

/** Shows the time, and how far it can go. */
function showTime() {
  const slider = by("time"), end = Math.max(told.tweensEnd || 0, (told.time || 0) + 1000)
  if (!isSliding) {
    slider.min = told.time || 0
    slider.max = end
    slider.value = told.time || 0
  }
  slider.disabled = !told.isOpen
  by("clock").textContent = `${told.time || 0} ms`
  by("tweens").disabled = !isRunning && (!told.isOpen || !(told.tweensEnd > told.time))
  by("tweens").textContent = isRunning ? "Pause tweens" : "Play tweens"
}

/** Lists the fields into which letters can go. */
function showFields() {
  const states = moments.length ? moments.at(-1).states || [] : []
  const fields = states.flatMap(it => it.fields.filter(([, value]) => value.startsWith('"')).map(([name]) => [it, name]))
  const options = fields.slice(0, MOST).map(([it, name]) => [`${it.node}.${name}`, `#${it.node} ${it.name}.${name}`])
  const list = by("field"), before = list.value
  by("typing").hidden = by("letters").hidden = !options.length
  list.replaceChildren(...options.map(([value, text]) => made("option", { value }, text)))
  if (options.some(([value]) => value === before)) list.value = before
}

/** Shows what was done, as a test or as a script. */
function showScript() {
  const form = by("form").value, text = (told[form] || []).map(it => `${it}\n`).join("")
  if (by("script").value === text) return
  by("script").value = text
  by("script").scrollTop = by("script").scrollHeight
}

by("latest").onclick = () => { go(moments.length - 1); frame.focus() }
by("undo").onclick = () => act([{ do: "undo" }])
by("again").onclick = () => act([{ do: "again" }])

const ALONE = /^(frame|hit|semantics|states|cells|focus|see|no|field|refused)\b/
by("lines-form").onsubmit = event => {
  event.preventDefault()
  const text = by("line").value.trim()
  by("line").value = ""
  if (text) act([line(text), ...ALONE.test(text) ? [] : thenFrame()])
}

/** Sets the time to what the slider says; while something is under way only the last of several counts. */
by("time").oninput = () => {
  const isFirst = !isSliding
  isSliding = true
  by("clock").textContent = `${by("time").value} ms`
  if (by("time").isWaiting) return
  by("time").isWaiting = true
  queue.then(() => {
    by("time").isWaiting = false
    const at = Number(by("time").value)
    if (at > told.time) act([line(`at ${at}`), ...thenFrame()], !isFirst)
  })
}
by("time").onchange = () => queue.then(() => {}).then(() => queue).then(() => { isSliding = false; showTime() })

by("tweens").onclick = async () => {
  if (isRunning) {
    isRunning = false
    return
  }
  isRunning = true
  const begin = performance.now(), from = told.time
  let isMore = false
  while (isRunning && told.isOpen && told.time < told.tweensEnd) {
    await new Promise(done => setTimeout(done, 40))
    const at = Math.min(told.tweensEnd, from + Math.round(performance.now() - begin))
    await act([line(`at ${at}`), line("frame")], isMore)
    isMore = true
  }
  isRunning = false
  showTime()
}

by("form").onchange = () => {
  const file = by("file")
  file.value = file.value.replace(/\.(test|frame)$/, by("form").value === "test" ? ".test" : ".frame")
  showScript()
}
by("copy").onclick = async () => {
  try {
    await navigator.clipboard.writeText(by("script").value)
    by("saved").textContent = "Copied."
  } catch {
    by("script").select()
    by("saved").textContent = "It is chosen: copy it with the keyboard."
  }
}

let kept = ""
by("save-form").onsubmit = async event => {
  event.preventDefault()
  const name = by("file").value.trim()
  try {
    const { said } = await ask("save", { name, over: kept === name })
    kept = said.includes("is there already") ? name : ""
    by("saved").textContent = said
  } catch (fault) {
    by("saved").textContent = fault.message
  }
}
by("file").value = `${told.name}.test`
if (told.said) say(told.said)
go(named() >= 0 ? named() : moments.length - 1)
follow()
