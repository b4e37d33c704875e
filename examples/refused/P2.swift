func main(system: NodeSystem) async throws {
  print(1) print(2)
}
