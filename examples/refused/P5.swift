func main(system: NodeSystem) async throws {
  print(1 < 2 < 3)
}
