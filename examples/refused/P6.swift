func main(system: NodeSystem) async throws {
  print(1 + try f())
}
