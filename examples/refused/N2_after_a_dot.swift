actor Cart {
}
func pay(cart: Cart.ID) {
}
