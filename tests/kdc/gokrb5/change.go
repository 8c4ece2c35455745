// Change logs a user in by gokrb5, changes the password, and logs in with the new one.
//
//	change CONFIGURATION NAME
//
// reads the password and then, where it is to be changed, the new one, a line each. It prints a line for
// each of the library's calls, with what it returned; a login asks for a ticket too. The status is 0 where
// the last one gave that. A change is asked for though the first login fails, since the password may have
// expired.
package main

import (
	"bufio"
	"fmt"
	"os"

	"github.com/jcmturner/gokrb5/v8/client"
	"github.com/jcmturner/gokrb5/v8/config"
)

// login prints what Login returns, and whether its ticket gives others.
func login(user *client.Client) bool {
	if err := user.Login(); err != nil {
		fmt.Println("Login:", err)
		return false
	}
	realm := user.Credentials.Domain()
	if _, _, err := user.GetServiceTicket("krbtgt/" + realm); err != nil {
		fmt.Println("GetServiceTicket:", err)
		return false
	}
	fmt.Printf("Login: %s@%s has a ticket\n", user.Credentials.UserName(), realm)
	return true
}

// change prints what ChangePasswd returns.
func change(user *client.Client, password string) bool {
	done, err := user.ChangePasswd(password)
	fmt.Printf("ChangePasswd: %t, %v\n", done, err)
	return done
}

// run is whether the last login gave a ticket.
func run() bool {
	configuration, err := config.Load(os.Args[1])
	if err != nil {
		fmt.Println("Load:", err)
		return false
	}
	var typed []string
	for lines := bufio.NewScanner(os.Stdin); lines.Scan(); {
		typed = append(typed, lines.Text())
	}
	realm := configuration.LibDefaults.DefaultRealm
	user := client.NewWithPassword(os.Args[2], realm, typed[0], configuration)
	isIn := login(user)
	if len(typed) == 1 {
		return isIn
	}
	return change(user, typed[1]) && login(user)
}

func main() {
	if !run() {
		os.Exit(1)
	}
}
