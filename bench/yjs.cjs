// node yjs.cjs make INSERTIONS UPDATE: makes an update of Yjs of lines with a place and a character each.
// node yjs.cjs open UPDATE: prints the text of an update as `outline show` prints it.
const fs = require("fs")
const Y = require("yjs")

const [command, from, to] = process.argv.slice(2)
const made = new Y.Doc()
const text = made.getText("root")

if (command === "make") {
  const insertions = fs.readFileSync(from, "utf8").split("\n").filter((line) => line)
  for (const insertion of insertions) {
    const [place, character] = insertion.split(" ")
    text.insert(Number(place), character)
  }
  fs.writeFileSync(to, Y.encodeStateAsUpdate(made))
} else {
  Y.applyUpdate(made, fs.readFileSync(from))
  process.stdout.write(`node 0 root\ntext "${text.toString()}"\n`)
}
