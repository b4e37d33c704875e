func main(system: NodeSystem) async throws {
  await try f()
}
