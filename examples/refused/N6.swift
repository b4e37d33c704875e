import Distributed
import Foundation
