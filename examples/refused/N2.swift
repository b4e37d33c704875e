func main(system: NodeSystem) async throws {
  let ratio: Double = 1
  print(ratio)
}
