func main(system: NodeSystem) async throws {
  let total = 1
  let total = 2
  print(total)
}
