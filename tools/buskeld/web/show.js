"use strict"

// ---- what the page shows: moments of a run, one after another

const told = JSON.parse(document.getElementById("data").textContent)
const by = id => document.getElementById(id)
const SVG = "http://www.w3.org/2000/svg"
const MOST = 500
const NONE = "There is no frame here."
const BESIDE = "The pointer is beside the picture."
const more = { node: () => [], field: null, shown: () => {} }
let moments = told.moments, now = 0, chosen = null, under = [], playing = 0

/** An element with properties or attributes, and what is in it. */
function made(tag, properties = {}, ...inner) {
  const element = document.createElement(tag)
  for (const [name, value] of Object.entries(properties)) {
    if (name in element) element[name] = value
    else element.setAttribute(name, value)
  }
  element.append(...inner)
  return element
}

/** An SVG element with attributes. */
function drawn(tag, attributes, text = "") {
  const element = document.createElementNS(SVG, tag)
  for (const [name, value] of Object.entries(attributes)) element.setAttribute(name, value)
  element.textContent = text
  return element
}

/** The first of many, and how many are left out. */
function listed(many, make, tag = "li") {
  const items = many.slice(0, MOST).map(make)
  if (many.length > MOST) items.push(made(tag, {}, `.. and ${many.length - MOST} more`))
  return items
}

// ---- going through the moments

/** Goes to a moment. */
function go(to) {
  now = Math.max(0, Math.min(moments.length - 1, to))
  chosen = null
  show()
  if (moments.length) remember(`#frame=${moments[now].number}`)
}

/** Puts the place into the address. */
function remember(hash) {
  if (location.hash === hash) return
  try { history.replaceState(null, "", hash) } catch { location.replace(hash) }
}

/** The moment that the address names; none where it names none. */
function named() {
  const found = /^#frame=(\d+)$/.exec(location.hash)
  return found ? moments.findIndex(it => it.number === Number(found[1])) : -1
}

/** How long a moment is shown when they are played: as long as its time says, where it says anything. */
function pause() {
  const by = moments[now + 1].time - moments[now].time
  return by > 0 ? Math.max(60, Math.min(2000, by)) : 700
}

/** Plays the moments from here, or from the first one; or stops that. */
function play() {
  if (playing) return stop()
  if (now >= moments.length - 1) go(0)
  by("play").textContent = "Pause"
  const step = () => {
    if (now >= moments.length - 1) return stop()
    playing = setTimeout(() => { go(now + 1); step() }, pause())
  }
  step()
}

/** Stops the playing. */
function stop() {
  clearTimeout(playing)
  playing = 0
  by("play").textContent = "Play"
}

// ---- a moment

/** Shows the moment that is now. */
function show() {
  showRefusal()
  by("frames").hidden = by("main").hidden = !moments.length
  if (!moments.length) return
  const moment = moments[now]
  document.title = `${told.name}: ${moment.title}`
  by("title").textContent = moment.title
  by("place").textContent = `${now + 1} of ${moments.length}` + (moment.time ? `, at ${moment.time} ms` : "")
  by("first").disabled = by("back").disabled = now === 0
  by("last").disabled = by("next").disabled = now === moments.length - 1
  showPicture(moment)
  const back = keyboardPlace()
  by("notes").replaceChildren(...listed(moment.notes, note => made("li", {}, note)))
  by("lines").replaceChildren(...listed(moment.lines, lineItem))
  by("focus").textContent = focusText(moment)
  by("states").replaceChildren(...statesPart(moment))
  by("semantics").replaceChildren(...semanticsPart(moment))
  more.shown()
  showMarks()
  back()
}

/** Gives the keyboard back to what has it now, and what is typed there, when that is made anew. */
function keyboardPlace() {
  const before = document.activeElement, key = before && before.dataset.key
  if (!key) return () => {}
  const typed = before.tagName === "INPUT" && before.value !== before.defaultValue ? before.value : null
  return () => {
    const after = document.querySelector(`[data-key="${CSS.escape(key)}"]`)
    if (!after || after === before) return
    if (typed !== null) after.value = typed
    after.focus()
  }
}

/** Says why the program is refused. */
function showRefusal() {
  const lines = told.broken ? [told.broken] : told.refused || []
  by("refusal").hidden = !lines.length
  if (!lines.length) return
  by("refused").textContent = told.broken ? "The program gave no answer" : `The program is refused: ${lines[0]}`
  by("why").replaceChildren(...reasonParts(told.broken ? lines : lines.slice(1).map(line => line.replace(/^ {2}/, ""))))
}

/** Lines that say why something is refused; those of a file, and the mark below them, keep their places. */
function reasonParts(lines) {
  const parts = []
  for (const line of lines) {
    const last = parts.at(-1)
    if (!line.startsWith(" ")) parts.push(made("p", {}, line))
    else if (last && last.tagName === "PRE") last.append("\n" + line.slice(2))
    else parts.push(made("pre", { tabIndex: 0, role: "group", "aria-label": "the line in the file" }, line.slice(2)))
  }
  return parts
}

/** Shows the picture of a moment. */
function showPicture(moment) {
  const picture = by("picture")
  if (picture.source !== moment.picture) {
    picture.source = moment.picture
    picture.innerHTML = moment.picture
  }
  by("point").hidden = !moment.picture
  by("numbers").disabled = !moment.semantics
  if (!moment.picture) picture.replaceChildren(made("p", { className: "nothing" }, "No picture"))
  by("main").style.setProperty("--natural", `${moment.view[0] / moment.unit}px`)
}

/** A line, and what it printed. */
function lineItem(line) {
  const bad = line.wrong.length || line.answers.some(it => it.kind === "refused" || it.kind === "fault")
  const item = made("li", { className: bad ? "bad" : line.own ? "" : "here" }, made("code", { className: "asked" }, line.text))
  if (line.played.length) item.append(made("p", { className: "answer hint" }, `played as ${line.played.join("; ")}`))
  for (const it of line.answers) item.append(answerPart(it))
  for (const it of line.wrong) item.append(made("p", { className: "answer bad" }, it))
  return item
}

/** What a line printed. */
function answerPart(answer) {
  if (answer.kind === "semantics") return made("div", { className: "answer" }, outline(answer.nodes, false))
  if (answer.kind === "cells") return cellsPart(answer)
  const part = made("div", { className: `answer ${answer.kind}` })
  if (answer.text) part.append(made("code", { className: "said" }, made("pre", {}, answer.text)))
  part.append(...reasonParts(answer.why || []))
  return part
}

/** A grid of cells, in which a wide character is as wide as two others whatever the font. */
function cellsPart(answer) {
  const grid = made("div", { className: "cells" })
  answer.rows.forEach((row, at) => {
    if (at) grid.append("\n")
    for (const [text, isWide] of row) grid.append(isWide ? made("span", {}, text) : text)
  })
  return made("div", { className: "answer" }, grid, made("small", {}, answer.text))
}

/** Who has the focus. */
function focusText(moment) {
  if (!moment.picture) return NONE
  if (moment.focus === undefined) return "The lines of this frame don't say who has it."
  if (moment.focus === null) return "No node has the focus."
  const node = everyNode(moment).find(it => it.node === moment.focus)
  return `#${moment.focus}` + (node && node.label ? ` "${node.label}"` : "")
}

/** Says that no line of the script prints something, or that there is no frame of which it could. */
const noLine = word => moments[now].picture ? ["The script has no line ", made("code", {}, word), " at this frame."] : [NONE]

/** The states of a moment. */
function statesPart(moment) {
  if (!moment.states) return [made("p", { className: "hint" }, ...noLine("states"))]
  const rows = moment.states.flatMap(state => state.fields.map(([field, value]) => ({ state, field, value })))
  if (!rows.length) return [made("p", { className: "hint" }, "No component has fields, and there is no Viewport.")]
  const heads = ["Node", "Component", "Field", "Value"].map(text => made("th", { scope: "col" }, text))
  const body = listed(rows, ({ state, field, value }) => made("tr", {},
    made("td", {}, made("code", {}, `#${state.node}`)), made("td", {}, state.name), made("td", {}, field),
    made("td", {}, more.field ? more.field(state, field, value) : made("code", {}, value))), "tr")
  return [made("table", {}, made("thead", {}, made("tr", {}, ...heads)), made("tbody", {}, ...body))]
}

/** The semantics tree of a moment. */
function semanticsPart(moment) {
  if (!moment.semantics) return [made("p", { className: "hint" }, ...noLine("semantics"))]
  return [outline(moment.semantics, true)]
}

/** Nodes of a semantics tree, as nested lists. */
function outline(nodes, isAlive) {
  return made("ul", {}, ...listed(nodes, node => {
    const [x, y, width, height] = node.area
    const name = node.label ? `"${node.label}"` : "no label"
    const number = isAlive ? nodeButton(node) : made("code", {}, `#${node.node}`)
    const marks = node.marks.length ? made("b", {}, ` ${node.marks.join(" ")}`) : ""
    const item = made("li", {}, number, " ", name, marks, " ", made("small", {}, `${width} by ${height} at (${x}, ${y})`))
    if (isAlive) for (const it of more.node(node)) item.append(" ", it)
    if (node.below.length) item.append(outline(node.below, isAlive))
    return item
  }))
}

/** A button with a node's number, which shows its rectangle. */
function nodeButton(node) {
  const button = made("button", { type: "button", "aria-pressed": "false", title: "shows its rectangle", "data-key": `node ${node.node}` }, `#${node.node}`)
  button.onclick = () => {
    chosen = chosen === node.node ? null : node.node
    for (const it of by("semantics").querySelectorAll("[aria-pressed]")) it.setAttribute("aria-pressed", String(it === button && chosen !== null))
    showMarks()
  }
  button.onmouseenter = () => { under = [node.node]; showMarks() }
  button.onmouseleave = () => { under = []; showMarks() }
  return button
}

/** All nodes of a moment's semantics tree. */
function everyNode(moment) {
  const each = nodes => nodes.flatMap(node => [node, ...each(node.below)])
  return each(moment.semantics || [])
}

// ---- the picture: rectangles and numbers of nodes, and the point under the pointer

/** Draws the rectangles that are wanted. */
function showMarks() {
  const marks = by("marks"), moment = moments[now]
  marks.replaceChildren()
  if (!moment || !moment.picture) return
  const [width, height] = moment.view
  marks.setAttribute("viewBox", `0 0 ${width} ${height}`)
  const pixel = width / (by("frame").clientWidth || 1)
  for (const node of everyNode(moment).slice(0, MOST)) {
    const isChosen = node.node === chosen || under.includes(node.node), isFocused = node.node === moment.focus
    if (isChosen || isFocused || by("numbers").checked) mark(node, pixel, isChosen, isFocused)
  }
}

/** Draws the rectangle of a node, and its number above it where there is room for that. */
function mark(node, pixel, isChosen, isFocused) {
  const [x, y, width, height] = node.area, text = `#${node.node}`
  const kind = `${isChosen ? "chosen" : ""} ${isFocused ? "focused" : ""}`.trim()
  by("marks").append(drawn("rect", { x, y, width, height, class: kind, "data-node": node.node }))
  if (!isChosen && !by("numbers").checked) return
  const size = 11 * pixel, high = size * 1.4, top = y >= high ? y - high : y
  by("marks").append(drawn("rect", { x, y: top, width: (text.length * 7 + 6) * pixel, height: high, class: "tag" }))
  by("marks").append(drawn("text", { x: x + 3 * pixel, y: top + size * 1.05, "font-size": size }, text))
}

/** The point of the view that is under the pointer. */
function pointOf(event) {
  const svg = by("picture").querySelector("svg")
  if (!svg) return null
  const at = new DOMPoint(event.clientX, event.clientY).matrixTransform(svg.getScreenCTM().inverse())
  return [Math.floor(at.x), Math.floor(at.y)]
}

/** The semantics nodes at a point, the deepest first. */
function nodesAt(moment, [x, y]) {
  return everyNode(moment).filter(({ area }) => area[0] <= x && x < area[0] + area[2] && area[1] <= y && y < area[1] + area[3]).reverse()
}

/** Says where the pointer is, and which nodes of the semantics tree are there. */
function showPoint(event) {
  const at = pointOf(event)
  if (!at) return
  const nodes = nodesAt(moments[now], at)
  under = nodes.slice(0, 1).map(it => it.node)
  const names = nodes.map(it => `#${it.node}${it.label ? ` "${it.label.replace(/\n/g, " ")}"` : ""}`)
  by("point").textContent = `(${at[0]}, ${at[1]}) u` + (names.length ? `; semantics ${names.join(", ")}` : "")
  showMarks()
  return at
}

// ---- keys and buttons

/** Whether a key belongs to what has the keyboard. */
function isTaken(event) {
  return event.defaultPrevented || event.ctrlKey || event.metaKey || event.altKey || event.target.closest("input, select, textarea, .touch")
}

document.addEventListener("keydown", event => {
  const to = { ArrowLeft: now - 1, ArrowRight: now + 1, Home: 0, End: moments.length - 1 }[event.key]
  if (to === undefined || isTaken(event) || !moments.length) return
  event.preventDefault()
  stop()
  go(to)
})
by("first").onclick = () => { stop(); go(0) }
by("back").onclick = () => { stop(); go(now - 1) }
by("next").onclick = () => { stop(); go(now + 1) }
by("last").onclick = () => { stop(); go(moments.length - 1) }
by("play").onclick = play
by("numbers").onchange = showMarks
by("frame").addEventListener("pointermove", showPoint)
by("frame").addEventListener("pointerleave", () => { under = []; by("point").textContent = BESIDE; showMarks() })
addEventListener("hashchange", () => { if (named() >= 0) go(named()) })
addEventListener("resize", showMarks)
if (told.generation === undefined) go(Math.max(0, named()))
